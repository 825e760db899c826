:- module shop.
:- interface.
:- import_module list, bool, maybe, pair, int, string, char, io, require.
