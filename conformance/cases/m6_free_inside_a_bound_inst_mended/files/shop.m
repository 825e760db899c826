:- module shop.
:- interface.
:- implementation.
:- inst boxed == bound(box(ground)).
