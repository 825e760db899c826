:- module shop.
:- interface.
:- type drink ---> green ; black ; green.
:- pred sells(drink::out) is nondet.
:- implementation.
sells(green).
sells(black).
