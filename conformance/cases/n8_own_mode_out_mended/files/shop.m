:- module shop.
:- interface.
:- type drink ---> green ; black.
:- pred sells(drink::give) is nondet.
:- implementation.
:- mode give == free >> ground.
sells(green).
sells(black).
