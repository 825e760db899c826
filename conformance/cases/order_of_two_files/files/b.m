:- module b.
:- interface.
1.
