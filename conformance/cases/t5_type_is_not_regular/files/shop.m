:- module shop.
:- interface.
:- type two(T) ---> two(T, T).
:- type nest(T) ---> leaf(T) ; deeper(nest(two(T))).
