:- module shop.
:- interface.
:- type drink ---> green ; black.
:- pred sells(drink::out) is nondet.
:- implementation.
1.
:- pred tea(cup::out) is nondet.
sells(green).
sells(black).
