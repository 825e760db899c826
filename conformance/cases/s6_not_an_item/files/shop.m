:- module shop.
:- interface.
:- type drink ---> green ; black.
:- pred sells(drink) is nondet.
:- implementation.
sells(green).
sells(black).
