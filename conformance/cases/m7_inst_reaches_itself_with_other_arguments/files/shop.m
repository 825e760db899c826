:- module shop.
:- interface.
:- implementation.
:- inst chain(I) == bound(end ; link(chain(bound(box(I))))).
