"""Archives and packages of the program."""
