:- module shop.
:- interface.
:- type drink ---> green ; black.
:- pred sells(drink::out) is nondet.
:- implementation.
pours :- promise_pure(sells(Cup^drink)).
sells(green).
sells(black).
