:- module family.
:- implementation.
parent(ann, bob).
parent(ann, cid).
:- interface.
:- pred parent(person::out, person::out) is nondet.
:- type person ---> ann ; bob ; cid.
:- implementation.
parent(bob, cid).
parent(ann, bob).
:- end_module family.
