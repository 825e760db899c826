:- module shop.
:- interface.
:- implementation.
:- pred sign(int::in, int::out) is det.
sign(X, Y) :- ( if X = 0 then Y = 0 else Y = 1 ).
