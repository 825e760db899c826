:- module shop.
:- interface.
:- type drink ---> green ; black.
:- pred sells(drink::out) is nondet.
:- implementation.
:- type price ---> cheap ; dear where equality is same.
sells(green).
sells(black).
