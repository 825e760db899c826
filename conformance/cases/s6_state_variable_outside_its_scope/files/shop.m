:- module shop.
:- interface.
:- type drink ---> green ; black.
:- pred sells(drink::out) is nondet.
:- implementation.
:- pred brew(drink::out) is nondet.
brew(!:X) :- sells(!.Y).
sells(green).
sells(black).
