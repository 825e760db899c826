:- module a.
:- interface.
:- foo.
