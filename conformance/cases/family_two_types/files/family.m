:- module family.
:- interface.
:- type person ---> ann ; bob ; cid.
:- pred parent(person::out, person::out) is nondet.
:- type drink ---> tea ; water.
:- pred drinks(person::out, drink::out) is nondet.
:- implementation.
drinks(ann, tea).
drinks(cid, water).
parent(ann, bob).
parent(ann, cid).
parent(bob, cid).
parent(ann, bob).
