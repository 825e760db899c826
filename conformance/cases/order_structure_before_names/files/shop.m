:- module shop.
:- interface.
:- type drink ---> green ; black.
:- pred sells(drink::out) is nondet.
sells(mint).
:- implementation.
sells(green).
sells(black).
