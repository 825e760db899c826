:- module family.
:- interface.
:- import_module people.
:- pred parent(person::out, person::out) is nondet.
:- implementation.
parent(ann, bob).
parent(ann, cid).
parent(bob, cid).
parent(ann, bob).
