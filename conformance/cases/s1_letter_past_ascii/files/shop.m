:- module shop.
:- interface.
:- type drink ---> grün ; black.
:- pred sells(drink::out) is nondet.
:- implementation.
sells(grün).
sells(black).
