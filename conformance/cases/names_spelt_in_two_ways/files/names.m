:- module names.
:- interface.
:- type name ---> 'green' ; 'bl\x61\ck' ; 'a\
b'.
:- pred name(name::out) is nondet.
:- implementation.
name('green').
name('bl\x61\ck').
name('a\
b').
