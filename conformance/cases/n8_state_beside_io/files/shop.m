:- module shop.
:- interface.
:- type drink ---> green ; black.
:- pred sells(drink::out) is nondet.
:- implementation.
:- import_module io.
:- type state ---> open ; closed.
:- pred now(state::out) is nondet.
now(open).
sells(green).
sells(black).
