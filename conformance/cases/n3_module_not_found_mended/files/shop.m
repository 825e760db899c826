:- module shop.
:- interface.
:- import_module drinks.
