:- module shop.
:- interface.
:- type drink ---> green ; black.
:- pred sells(drink::out) is nondet.
:- implementation.
sells(if green = black then green else black).
sells(green).
sells(black).
