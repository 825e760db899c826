:- module shop.
:- interface.
:- type drink ---> green ; black.
:- pred sells(drink::out) is nondet.
:- implementation.
:- type leaf ---> green ; brown.
sells(green).
sells(black).
