:- module shop.
:- interface.
:- type drink ---> green ; black.
:- pred sells(drink::out) is nondet.
:- implementation.
:- pred cups(drink).
:- mode cups(out, out) is nondet.
cups(green).
sells(green).
sells(black).
