:- module f.
:- interface.
:- type t ---> a ; b.
:- pred p(t::out) is nondet.
:- implementation.
p(a).
