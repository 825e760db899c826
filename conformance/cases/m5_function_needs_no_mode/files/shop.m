:- module shop.
:- interface.
:- type drink ---> green ; black.
:- pred sells(drink::out) is nondet.
:- implementation.
:- func best = drink.
best = green.
sells(green).
sells(black).
