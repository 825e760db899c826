:- module shop.
:- interface.
:- type drink ---> green ; black.
:- pred sells(drink::out) is nondet.
:- implementation.
:- pred pairs(drink::out, drink::out) is nondet.
pairs(green, black).
sells(green).
sells(black).
