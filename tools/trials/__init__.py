"""What is tested beyond the gate."""
