:- module shop.
:- interface.
:- import_module menu, drinks.
:- pred sells(drink::out) is nondet.
:- implementation.
sells(green).
