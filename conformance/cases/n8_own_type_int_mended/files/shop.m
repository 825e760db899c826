:- module shop.
:- interface.
:- type int ---> green ; black.
:- pred sells(shop.int::out) is nondet.
:- implementation.
sells(green).
sells(black).
