:- module shop.
:- interface.
:- pred main is det.
:- implementation.
main.
