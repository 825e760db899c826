:- module family.
:- interface.
:- type person ---> ann ; bob ; cid.
:- pred parent(person::out, person::out) is nondet.
:- implementation.
:- dynamic parent/2.
parent(ann, cid).
parent(bob, cid).
parent(ann, bob).
