:- module shapes.
:- interface.
:- import_module int.
:- type shape ---> box(int) ; box(int, int) ; point.
:- pred area(shape::out, int::out) is multi.
:- implementation.
area(box(4), 16).
area(box(2, 3), 6).
area(point, 0).
area(box(A, B), A * B) :- A = 1, B = 6.
