:- module family.
:- interface.
:- use_module people.
:- pred parent(people.person::out, people.person::out) is nondet.
:- implementation.
parent(people.ann, people.bob).
parent(people.ann, people.cid).
parent(people.bob, people.cid).
parent(people.ann, people.bob).
