:- module shop.
:- interface.
:- type drink ---> green ; black.
:- pred sells(drink::out) is det.
:- implementation.
sells(green).
sells(black).
