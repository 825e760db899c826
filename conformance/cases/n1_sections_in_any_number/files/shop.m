:- module shop.
:- implementation.
sells(green).
:- interface.
:- type drink ---> green ; black.
:- interface.
:- pred sells(drink::out) is nondet.
:- implementation.
sells(black).
