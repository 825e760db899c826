:- module shop.
:- interface.
:- type leaf ---> aa.
:- pred many is det.
:- implementation.
many :- X0 = aa, X1 = aa, X2 = aa, X3 = aa, X4 = aa, X5 = aa, X6 = aa, X7 = aa, X8 = aa, X9 = aa, X10 = aa.
