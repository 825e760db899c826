:- module town.
:- interface.
:- use_module family.
