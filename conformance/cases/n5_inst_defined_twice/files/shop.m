:- module shop.
:- interface.
:- type drink ---> green ; black.
:- pred sells(drink::out) is nondet.
:- implementation.
:- inst hot == ground.
:- inst hot == bound(green).
sells(green).
sells(black).
