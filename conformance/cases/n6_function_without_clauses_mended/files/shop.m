:- module shop.
:- interface.
:- type drink ---> green ; black.
:- pred sells(drink::out) is nondet.
:- implementation.
:- func next(int) = int.
next(X) = X.
sells(green).
sells(black).
