:- module shop.
:- interface.
:- type drink ---> green ; black.
:- pred sells(drink::out) is nondet.
:- implementation.
:- pred pours(drink::out) is nondet.
pours(green).
sells(green).
sells(black).
