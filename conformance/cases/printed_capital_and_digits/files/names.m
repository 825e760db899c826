:- module names.
:- interface.
:- type name ---> 'Ann' ; ann2 ; an_N ; '2nd' ; '_ann'.
:- pred name(name::out) is nondet.
:- implementation.
name('Ann').
name(ann2).
name(an_N).
name('2nd').
name('_ann').
