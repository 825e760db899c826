:- module f.
:- interface.
:- type person ---> ann ; bob ; cid ; dan ; eve.
:- pred parent(person, person).
:- mode parent(in, out) is nondet.
:- mode parent(in, in) is semidet.
:- pred grandchild(person::in, person::out) is nondet.
:- implementation.
parent(ann, bob).
parent(ann, cid).
parent(bob, dan).
parent(bob, eve).
parent(cid, eve).
parent(bob, dan).
grandchild(X, Z) :- parent(X, Y), parent(Y, Z), \+ parent(X, Z).
