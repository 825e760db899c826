:- module shop.
:- interface.
:- type cup == mug.
:- type mug ---> small ; large.
