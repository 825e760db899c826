:- module shop.
:- interface.
:- pred opened(int::out) is nondet.
:- implementation.
opened(9223372036854775808).
