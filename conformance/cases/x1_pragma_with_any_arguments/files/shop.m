:- module shop.
:- interface.
:- type drink ---> green ; black.
:- pred sells(drink::out) is nondet.
:- implementation.
:- pragma no_inline(nothing, [1]).
sells(green).
sells(black).
