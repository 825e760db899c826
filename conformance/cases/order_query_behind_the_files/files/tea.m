a b.
