:- module shop.
:- interface.
:- type drink ---> green ; black.
:- pred sells(drink::out) is nondet.
:- implementation.
:- promise all [X] sells(X).
sells(green).
sells(black).
