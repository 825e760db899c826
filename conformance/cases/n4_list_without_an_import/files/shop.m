:- module shop.
:- interface.
:- type drink ---> green ; black.
:- pred order(list(drink)::out) is nondet.
:- implementation.
order([green, black]).
order([]).
