:- module shop.
:- interface.
:- import_module aa.
:- type colour ---> green ; black.
:- pred cup(colour::out) is nondet.
:- implementation.
cup(green).
