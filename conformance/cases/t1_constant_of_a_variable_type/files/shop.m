:- module shop.
:- interface.
:- pred gives(T::out) is nondet.
:- implementation.
gives(1).
