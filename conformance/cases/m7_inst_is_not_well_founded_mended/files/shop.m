:- module shop.
:- interface.
:- implementation.
:- inst boxed == bound(empty ; box(boxed)).
