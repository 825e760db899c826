:- module shop.
:- interface.
:- type drink ---> green ; black.
:- pred sells(drink::out) is nondet.
:- implementation.
:- pred price(int::out) is nondet.
price(3.5).
sells(green).
sells(black).
