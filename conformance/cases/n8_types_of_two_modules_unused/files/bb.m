:- module bb.
:- interface.
:- type colour ---> green ; black.
