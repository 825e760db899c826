:- module shop.
:- interface.
:- type drink ---> green ; black.
:- pred sells(drink::out) is nondet.
:- implementation.
sells(Drink) :- Drink.
sells(green).
sells(black).
