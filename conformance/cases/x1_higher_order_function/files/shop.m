:- module shop.
:- interface.
:- type drink ---> green ; black.
:- pred sells(drink::out) is nondet.
:- implementation.
:- type recipe ---> recipe(func(drink) = drink).
sells(green).
sells(black).
