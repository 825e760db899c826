:- module shop.
:- interface.
:- type drink ---> green ; black.
:- pred sells(drink::out) is nondet.
:- implementation.
:- type recipe ---> hot ; cold.
sells(green).
sells(black).
