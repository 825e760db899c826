:- module shop.
:- interface.
:- implementation.
