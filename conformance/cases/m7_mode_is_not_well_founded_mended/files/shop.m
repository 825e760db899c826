:- module shop.
:- interface.
:- implementation.
:- mode give == out.
