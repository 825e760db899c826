:- module shop.
:- interface.
:- implementation.
:- mode give == give.
