:- module shop.
:- interface.
:- type drink ---> green ; black.
:- pred sells(drink::out) is nondet.
:- implementation.
:- typeclass priced(T) where [].
sells(green).
sells(black).
