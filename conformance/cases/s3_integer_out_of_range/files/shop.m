:- module shop.
:- interface.
:- pred opened(int::out) is nondet.
:- implementation.
opened(20240000000000000000).
