:- module shop.
:- interface.
:- type drink ---> green ; black.
:- pred sells(drink::out) is nondet.
:- implementation.
sells(Cup^drink).
sells(green).
sells(black).
