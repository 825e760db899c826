:- module shop.
:- interface.
:- type drink ---> green ; black.
:- pred sells(drink::out) is nondet.
:- implementation.
sells(Cup^drink, (green & black)).
sells(green).
sells(black).
