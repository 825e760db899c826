:- module shop.
:- interface.
:- type box(T) ---> box(T).
