:- module shop.
:- interface.
:- type drink ---> green ; black.
:- pred sells(drink::give) is nondet.
:- implementation.
sells(green).
sells(black).
