:- module shop.
:- interface.
:- type drink ---> green ; black.
:- pred sells(drink::out) is nondet.
:- implementation.
:- import_module int.
:- func next(int) = int.
next(X) = X + 1.
sells(green).
sells(black).
