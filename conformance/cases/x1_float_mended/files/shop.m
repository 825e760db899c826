:- module shop.
:- interface.
:- type drink ---> green ; black.
:- pred sells(drink::out) is nondet.
:- implementation.
:- pred price(int::out) is nondet.
price(350).
sells(green).
sells(black).
