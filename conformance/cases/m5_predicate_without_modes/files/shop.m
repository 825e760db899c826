:- module shop.
:- interface.
:- type drink ---> green ; black.
:- pred sells(drink).
:- implementation.
sells(green).
sells(black).
