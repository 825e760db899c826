:- module shop.
:- interface.
:- type person ---> ann ; bob.
:- type drink ---> green ; black.
:- pred likes(person::out, drink::out) is nondet.
:- implementation.
likes(ann, green).
