:- module shop.
:- interface.
:- type drink ---> green ; black.
:- pred sells(drink::out) is nondet.
:- implementation.
:- pred pours(drink::in(ground)) is semidet.
pours(green).
sells(green).
sells(black).
