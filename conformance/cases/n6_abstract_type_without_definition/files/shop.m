:- module shop.
:- interface.
:- type drink ---> green ; black.
:- type price.
:- pred sells(drink::out) is nondet.
:- implementation.
sells(green).
sells(black).
