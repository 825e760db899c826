nothing.
