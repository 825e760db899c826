:- module shop.
:- interface.
:- use_module drinks.
:- pred sells(drinks.drink::out) is nondet.
:- implementation.
sells(drinks.green).
