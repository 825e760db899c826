:- module shop.
:- interface.
:- type drink ---> green ; black.
:- pred sells(drink::out).
:- implementation.
sells(green).
sells(black).
