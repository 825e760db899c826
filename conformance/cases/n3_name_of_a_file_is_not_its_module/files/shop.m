:- module shop.
:- interface.
:- import_module tea.
