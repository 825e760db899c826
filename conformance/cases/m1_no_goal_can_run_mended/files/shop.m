:- module shop.
:- interface.
:- implementation.
:- pred gives(int::out) is det.
gives(X) :- X = Y, Y = 1.
