:- module shop.
:- interface.
:- import_module drinks.
:- pred sells(drink::out) is nondet.
:- implementation.
sells(green).
