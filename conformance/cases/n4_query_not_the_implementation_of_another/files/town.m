:- module town.
:- interface.
:- import_module family.
