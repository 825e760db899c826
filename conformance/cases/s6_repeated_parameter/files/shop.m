:- module shop.
:- interface.
:- type drink ---> green ; black.
:- pred sells(drink::out) is nondet.
:- implementation.
:- type both(A, A) ---> both(A).
sells(green).
sells(black).
