"""What ./check runs, and what is run by hand before a change lands."""
