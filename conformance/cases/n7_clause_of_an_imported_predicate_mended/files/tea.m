:- module tea.
:- interface.
:- import_module shop.
:- implementation.
:- pred sells(drink::out) is nondet.
sells(green).
