:- module shop.
:- interface.
:- use_module drinks.
