:- module shop.
:- interface.
:- type drink ---> green ; black.
:- pred sells(drink::out) is nondet.
:- implementation.
:- func sells(drink) = drink.
sells(X) = X.
sells(green).
sells(black).
