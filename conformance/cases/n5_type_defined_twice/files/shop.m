:- module shop.
:- interface.
:- type drink ---> green ; black.
:- type drink ---> white ; mint.
:- pred sells(drink::out) is nondet.
:- implementation.
sells(green).
sells(black).
