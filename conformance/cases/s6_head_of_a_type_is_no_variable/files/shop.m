:- module shop.
:- interface.
:- type drink ---> green ; black.
:- pred sells(drink::out) is nondet.
:- implementation.
:- type box(drink) ---> box.
sells(green).
sells(black).
