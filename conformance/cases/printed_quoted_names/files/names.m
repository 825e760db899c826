:- module names.
:- interface.
:- type name ---> 'a b' ; 'it''s' ; 'x\ny'.
:- pred name(name::out) is nondet.
:- implementation.
name('a b').
name('it''s').
name('x\ny').
