:- module shop.
:- interface.
:- type leaf ---> a.
:- pred many is det.
:- implementation.
many :- X0 = a, X1 = a, X2 = a, X3 = a, X4 = a, X5 = a, X6 = a, X7 = a, X8 = a, X9 = a, X10 = a.
