:- module shop.
:- interface.
:- type drink ---> green ; black.
:- pred sells(drink::out) is nondet.
:- implementation.
:- pred brew(drink::in, drink::out) is nondet.
brew(!X) :- sells(!:X).
sells(green).
sells(black).
