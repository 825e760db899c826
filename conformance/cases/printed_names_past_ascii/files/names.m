:- module names.
:- interface.
:- type name ---> 'crème brûlée' ; 'thé'.
:- pred name(name::out) is nondet.
:- implementation.
name('crème brûlée').
name('thé').
