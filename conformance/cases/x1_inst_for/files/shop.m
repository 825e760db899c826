:- module shop.
:- interface.
:- type drink ---> green ; black.
:- pred sells(drink::out) is nondet.
:- implementation.
:- inst hot for drink/0 == bound(green).
sells(green).
sells(black).
