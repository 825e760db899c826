:- module names.
:- interface.
:- type name ---> mod ; rem ; div ; <> ; '--->'.
:- pred name(name::out) is nondet.
:- implementation.
name(mod).
name(rem).
name(div).
name(<>).
name('--->').
