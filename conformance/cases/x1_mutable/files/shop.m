:- module shop.
:- interface.
:- type drink ---> green ; black.
:- pred sells(drink::out) is nondet.
:- implementation.
:- mutable(last, drink, green, ground, [untrackable]).
sells(green).
sells(black).
