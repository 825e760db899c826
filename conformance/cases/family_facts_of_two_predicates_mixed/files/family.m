:- module family.
:- interface.
:- type person ---> ann ; bob ; cid.
:- pred parent(person::out, person::out) is nondet.
:- pred older(person::out, person::out) is nondet.
:- implementation.
older(ann, bob).
parent(ann, bob).
parent(ann, cid).
parent(bob, cid).
older(bob, cid).
parent(ann, bob).
