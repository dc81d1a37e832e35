"""Scripts beside the program: README.md lists them by who uses them."""
