:- module family.
:- interface.
:- type person ---> ann ; bob ; cid ; dan.
:- pred parent(person::out, person::out) is nondet.
:- pred ancestor(person::out, person::out) is nondet.
:- implementation.
parent(ann, bob).
parent(bob, cid).
parent(cid, dan).
ancestor(X, Z) :- ancestor(X, Y), parent(Y, Z).
ancestor(X, Y) :- parent(X, Y).
