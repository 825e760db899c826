:- module shop.
:- interface.
:- type drink ---> green ; black.
:- pred sells(drink::out) is nondet.
:- implementation.
:- inst asks == (pred(out) is nondet).
sells(green).
sells(black).
