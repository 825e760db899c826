:- module shop.
:- interface.
:- pred sells(drinks.drink::out) is nondet.
:- implementation.
sells(green).
