:- module shop.
:- interface.
:- type drink ---> green ; black.
:- pred sells(drink::out) is nondet.
:- implementation.
:- mode give == out.
:- mode give == in.
sells(green).
sells(black).
