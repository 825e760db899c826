:- module shop.
:- interface.
:- type box ---> box(T).
