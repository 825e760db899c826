:- module geo.
:- interface.
:- pred near(string::in, string::out) is nondet.
:- implementation.
:- pragma fact_table(near/2, "near.facts").
near("x", "y").
