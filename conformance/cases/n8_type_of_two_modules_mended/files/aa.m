:- module aa.
:- interface.
:- type colour ---> red ; blue.
