:- module shop.
:- interface.
:- implementation.
:- pred gives(int::out) is semidet.
gives(X) :- not X = 1.
