:- module street.
:- interface.
:- implementation.
:- import_module drinks, hill, harbour.
