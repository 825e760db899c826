% A loop that counts from one number up to another. Its calls stand one in another, so it needs the greatest depth.

:- module count.
:- interface.

:- pred count(int::in, int::in) is det.

:- implementation.
:- import_module int.

count(I, N) :-
    ( if I < N then
        count(I + 1, N)
    else
        true
    ).
