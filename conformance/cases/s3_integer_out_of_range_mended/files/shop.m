:- module shop.
:- interface.
:- pred opened(int::out) is nondet.
:- implementation.
opened(2024).
