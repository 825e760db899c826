:- module shop.
:- interface.
:- type price ---> cheap ; dear.
:- type drink ---> green ; black.
:- pred sells(drink::out) is nondet.
:- implementation.
sells(green).
sells(black).
