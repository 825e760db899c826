:- module shop.
:- interface.
:- import_module aa, bb.
:- pred cup(colour::out) is nondet.
:- implementation.
cup(red).
