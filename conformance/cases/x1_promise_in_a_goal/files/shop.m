:- module shop.
:- interface.
:- type drink ---> green ; black.
:- pred sells(drink::out) is nondet.
:- implementation.
:- pred pours(drink::out) is nondet.
pours(X) :- promise_equivalent_solutions(sells(X)).
sells(green).
sells(black).
