:- module shop.
:- interface.
:- type drink ---> green ; black.
:- pred sells(drink::out) is nondet.
:- implementation.
:- mode sold(out) is nondet.
sells(green).
sells(black).
