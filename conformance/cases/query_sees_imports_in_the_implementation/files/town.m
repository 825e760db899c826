:- module town.
:- interface.
:- implementation.
:- import_module family.
