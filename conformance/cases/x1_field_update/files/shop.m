:- module shop.
:- interface.
:- type drink ---> green ; black.
:- pred sells(drink::out) is nondet.
:- implementation.
sells(Cup) :- Cup = (drink := green).
sells(green).
sells(black).
