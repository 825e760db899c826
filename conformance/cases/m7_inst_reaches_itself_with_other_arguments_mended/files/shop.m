:- module shop.
:- interface.
:- implementation.
:- inst chain(I) == bound(end ; link(I, chain(I))).
