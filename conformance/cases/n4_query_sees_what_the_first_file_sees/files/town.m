:- module town.
:- interface.
