:- module shop.
:- interface.
:- type drink ---> green ; black.
:- pred sells(drink::out) is nondet.
:- implementation.
:- some [T] pred pours(T::out) is nondet.
sells(green).
sells(black).
