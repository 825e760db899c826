% Queens on a chess board, so that none attacks another: the K-th number of a list is the row of the queen in column K.
% Shown are lists, integers, a nondeterministic choice (`choose`) and a test (`is_safe`) that the compiler knows to
% have at most one answer.

:- module queens.
:- interface.
:- import_module list.

:- pred queens(int::in, list(int)::out) is nondet.

:- implementation.
:- import_module int.

queens(N, Queens) :- place(up_to(1, N), [], Queens).

:- func up_to(int, int) = list(int).
up_to(Low, High) = Numbers :-
    ( if Low > High then
        Numbers = []
    else
        Numbers = [Low | up_to(Low + 1, High)]
    ).

% place(Rows, Placed, Queens): queens for the rows that are left, beside those that stand already, the last one first.
:- pred place(list(int)::in, list(int)::in, list(int)::out) is nondet.
place([], _, []).
place([Row | Rows], Placed, [Queen | Queens]) :-
    choose(Queen, [Row | Rows], Others),
    is_safe(Queen, 1, Placed),
    place(Others, [Queen | Placed], Queens).

:- pred choose(int::out, list(int)::in, list(int)::out) is nondet.
choose(X, [X | Xs], Xs).
choose(X, [Y | Ys], [Y | Zs]) :- choose(X, Ys, Zs).

% No queen stands on a diagonal with this one.
:- pred is_safe(int::in, int::in, list(int)::in) is semidet.
is_safe(_, _, []).
is_safe(Queen, Distance, [Other | Others]) :-
    Queen \= Other + Distance,
    Queen \= Other - Distance,
    is_safe(Queen, Distance + 1, Others).
