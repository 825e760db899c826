:- module shop.
:- interface.
:- type drink ---> green ; black.
:- pred sells(drink::out) is multi.
:- implementation.
sells(green).
sells(black).
