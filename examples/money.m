% SEND + MORE = MONEY: each letter is a digit, no two are the same, and no number begins with 0.
% Shown are arithmetic, a state variable for the digits that are left, and a search that tests each column at once.

:- module money.
:- interface.

% puzzle(S, E, N, D, M, O, R, Y)
:- pred puzzle(int::out, int::out, int::out, int::out, int::out, int::out, int::out, int::out) is nondet.

:- implementation.
:- import_module int, list.

puzzle(S, E, N, D, M, O, R, Y) :-
    some [!Left] (
        !:Left = [0, 1, 2, 3, 4, 5, 6, 7, 8, 9],
        delete(!.Left, D, !:Left),
        delete(!.Left, E, !:Left),
        column(D, E, 0, Y, Carry1),
        delete(!.Left, Y, !:Left),
        delete(!.Left, N, !:Left),
        delete(!.Left, R, !:Left),
        column(N, R, Carry1, E, Carry2),
        delete(!.Left, O, !:Left),
        column(E, O, Carry2, N, Carry3),
        delete(!.Left, S, !:Left),
        delete(!.Left, M, _),
        S \= 0,
        M \= 0,
        column(S, M, Carry3, O, M)
    ).

% column(A, B, Carry, Digit, Next): a column that adds A, B and the carry has this digit below it and hands on Next.
:- pred column(int::in, int::in, int::in, int::out, int::out) is det.
column(A, B, Carry, Digit, Next) :-
    Sum = A + B + Carry,
    Digit = Sum mod 10,
    Next = Sum // 10.
