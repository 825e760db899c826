:- module shop.
:- interface.
:- type drink ---> green ; black.
:- pred sells(drink::out) is nondet.
:- implementation.
sells(X) :- ( 1 = 1 -> X = green ).
sells(green).
sells(black).
