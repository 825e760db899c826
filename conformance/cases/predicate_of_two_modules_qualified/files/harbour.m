:- module harbour.
:- interface.
:- import_module drinks.
:- pred sells(drink::out) is multi.
:- implementation.
sells(black).
