:- module shop.
:- interface.
:- implementation.
:- import_module require.
:- pred stops is erroneous.
stops :- error("closed").
