:- module tea.
:- interface.
:- import_module shop.
:- implementation.
sells(green).
