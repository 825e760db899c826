:- module ends.
:- interface.
:- type end ---> [] ; cons.
:- pred end(end::out) is nondet.
:- implementation.
end([]).
end(cons).
end('[]').
