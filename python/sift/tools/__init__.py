"""The tools beside the program, each a module with a `main` for its words."""
