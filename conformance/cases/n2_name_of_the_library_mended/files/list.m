:- module lists.
:- interface.
