:- module shop.
:- interface.
:- use_module drinks.
:- pred sells(drink::out) is nondet.
:- implementation.
sells(green).
