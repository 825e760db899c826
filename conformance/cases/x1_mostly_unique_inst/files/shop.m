:- module shop.
:- interface.
:- type drink ---> green ; black.
:- pred sells(drink::out) is nondet.
:- implementation.
:- mode kept == mostly_unique >> ground.
sells(green).
sells(black).
