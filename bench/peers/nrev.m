% Naive reverse: a list is reversed so many times, each time by appending at the end.

:- module nrev.
:- interface.

% reverses(Rounds, Length, First): the first number of the list 1 .. Length after so many reverses.
:- pred reverses(int::in, int::in, int::out) is semidet.

:- implementation.
:- import_module int, list.

reverses(Rounds, Length, First) :- rounds(Rounds, up_to(1, Length), [First | _]).

:- func up_to(int, int) = list(int).
up_to(Low, High) = Numbers :-
    ( if Low > High then
        Numbers = []
    else
        Numbers = [Low | up_to(Low + 1, High)]
    ).

:- pred rounds(int::in, list(int)::in, list(int)::out) is det.
rounds(Rounds, Numbers, Last) :-
    ( if Rounds > 0 then
        reversed(Numbers, Reversed),
        rounds(Rounds - 1, Reversed, Last)
    else
        Last = Numbers
    ).

:- pred reversed(list(int)::in, list(int)::out) is det.
reversed([], []).
reversed([X | Xs], Zs) :-
    reversed(Xs, Ys),
    joined(Ys, [X], Zs).

:- pred joined(list(int)::in, list(int)::in, list(int)::out) is det.
joined([], Ys, Ys).
joined([X | Xs], Ys, [X | Zs]) :- joined(Xs, Ys, Zs).
