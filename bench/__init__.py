"""Measurements of the libraries, of the program, and of other engines beside them."""
