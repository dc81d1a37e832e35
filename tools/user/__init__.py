"""What ./serve and ./demo use, and what whoever runs a server starts."""
