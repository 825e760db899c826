:- module shop.
:- interface.
:- type drink ---> green ; black.
:- pred sells(drink::out) is nondet.
:- implementation.
:- pred pairs(drink::out, drink::out) is nondet.
pairs(X, Y) :- sells(X), sells(Y).
sells(green).
sells(black).
