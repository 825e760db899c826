:- module shop.
:- interface.
:- pred opened(int::out) is nondet.
:- implementation.
opened(0x8000000000000000).
