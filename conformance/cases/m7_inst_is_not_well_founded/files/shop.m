:- module shop.
:- interface.
:- implementation.
:- inst boxed == boxed.
