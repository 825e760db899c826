:- module shop.
:- interface.
:- import_module drinks, cups, spoons.
