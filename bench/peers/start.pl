% Nearly nothing: what a start takes.

main :- write(true), nl.
