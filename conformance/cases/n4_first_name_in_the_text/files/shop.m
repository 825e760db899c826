:- module shop.
:- interface.
:- type drink ---> green ; black.
:- pred sells(drink::out) is nondet.
:- implementation.
:- pred pairs(cup::give, spoon::out) is nondet.
pairs(green, green).
sells(green).
sells(black).
