:- module shop.
:- interface.
:- import_module menu.
:- pred sells(drink::out) is nondet.
:- implementation.
sells(green).
