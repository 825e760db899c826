:- module menu.
:- interface.
:- import_module drinks.
