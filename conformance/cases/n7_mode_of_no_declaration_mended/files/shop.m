:- module shop.
:- interface.
:- type drink ---> green ; black.
:- pred sells(drink::out) is nondet.
:- implementation.
:- pred sold(drink).
:- mode sold(out) is nondet.
sold(green).
sells(green).
sells(black).
