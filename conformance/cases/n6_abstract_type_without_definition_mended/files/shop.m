:- module shop.
:- interface.
:- type drink ---> green ; black.
:- type price ---> cheap ; dear.
:- pred sells(drink::out) is nondet.
:- implementation.
sells(green).
sells(black).
