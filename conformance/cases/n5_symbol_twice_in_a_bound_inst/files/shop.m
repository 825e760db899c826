:- module shop.
:- interface.
:- type drink ---> green ; black.
:- pred sells(drink::out) is nondet.
:- implementation.
:- inst hot == bound(green ; black ; green).
sells(green).
sells(black).
