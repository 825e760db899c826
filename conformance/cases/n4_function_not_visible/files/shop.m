:- module shop.
:- interface.
:- type drink ---> green ; black.
:- pred sells(drink::out) is nondet.
:- implementation.
:- func next(int) = int.
next(X) = X + 1.
sells(green).
sells(black).
