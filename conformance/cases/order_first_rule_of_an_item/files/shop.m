:- module shop.
:- interface.
:- type drink ---> green ; black.
:- pred sells(drink::out) is nondet.
:- implementation.
:- pred sells(cup::out) is nondet.
sells(green).
sells(black).
