:- module list.
:- interface.
