:- module shop.
:- interface.
:- type drink ---> green ; black.
:- pred sells(drink::out) is nondet.
:- implementation.
:- instance priced(drink) where [].
sells(green).
sells(black).
