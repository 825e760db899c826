:- module shop.
:- interface.
:- implementation.
:- pred gives(int::out) is semidet.
gives(X) :- X = 2, not X = 1.
