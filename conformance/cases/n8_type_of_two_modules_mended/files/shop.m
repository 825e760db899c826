:- module shop.
:- interface.
:- import_module aa, bb.
:- pred cup(aa.colour::out) is nondet.
:- implementation.
cup(red).
