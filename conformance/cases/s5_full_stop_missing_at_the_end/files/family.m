:- module family.
:- interface.
:- type person ---> ann ; bob ; cid.
:- pred parent(person::out, person::out) is nondet.
:- implementation.
parent(ann, bob).
parent(ann, cid).
parent(bob, cid).
parent(ann, bob)