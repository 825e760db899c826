:- module shop.
:- interface.
:- pred gives(int::out) is nondet.
:- implementation.
gives(1).
