"""Tables that are found by wishes."""
