:- module shop.
:- interface.
:- type drink ---> green ; black.
:- pred sells(drink::out) is nondet.
:- implementation.
:- inst sold == any.
sells(green).
sells(black).
