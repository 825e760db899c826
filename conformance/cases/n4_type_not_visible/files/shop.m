:- module shop.
:- interface.
:- pred sells(drink::out) is nondet.
:- implementation.
sells(green).
