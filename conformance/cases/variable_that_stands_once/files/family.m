:- module family.
:- interface.
:- type person ---> ann ; bob ; cid.
:- pred parent(person::out, person::out) is nondet.
:- pred grandparent(person::out, person::out) is nondet.
:- implementation.
parent(ann, bob).
parent(bob, cid).
grandparent(X, Z) :- parent(X, Y), parent(Yy, Z).
