:- module family.
:- interface.
:- type person ---> ann ; bob ; cid.
:- implementation.
:- pred parent(person::out, person::out) is nondet.
parent(ann, bob).
parent(ann, cid).
parent(bob, cid).
parent(ann, bob).
