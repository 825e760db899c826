:- module shop.
:- interface.
:- type drink ---> green ; black.
:- pred sells(drink::out) is nondet.
:- implementation.
:- pred pours(pred(drink)::in) is nondet.
sells(green).
sells(black).
