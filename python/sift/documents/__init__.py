"""Documents: where in a mission a value stands, what its task texts say, and how documents are printed."""
