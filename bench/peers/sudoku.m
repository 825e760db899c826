% A sudoku: empty squares are filled row by row, each with a digit that no square of its row, column or box has. Of the
% easy one only three squares are empty.

:- module sudoku.
:- interface.
:- import_module list.

:- type level ---> easy ; hard.

:- pred sudoku(level::in, list(list(int))::out) is nondet.

:- implementation.
:- import_module int.

% The rows of the puzzle; 0 is an empty square.
:- func puzzle(level) = list(list(int)).
puzzle(easy) = [
    [9, 0, 2, 1, 5, 7, 6, 3, 8],
    [6, 1, 7, 4, 3, 8, 5, 9, 2],
    [8, 3, 5, 9, 0, 6, 7, 1, 4],
    [2, 9, 4, 6, 8, 1, 3, 7, 5],
    [3, 6, 1, 2, 7, 5, 4, 8, 9],
    [5, 7, 8, 3, 9, 4, 1, 2, 0],
    [1, 8, 3, 5, 4, 9, 2, 6, 7],
    [4, 2, 9, 7, 6, 3, 8, 5, 1],
    [7, 5, 6, 8, 1, 2, 9, 4, 3]
].
puzzle(hard) = [
    [9, 0, 0, 1, 0, 7, 0, 3, 0],
    [0, 0, 0, 4, 3, 0, 5, 0, 0],
    [8, 0, 5, 0, 0, 0, 0, 0, 4],
    [0, 0, 4, 0, 8, 0, 0, 0, 5],
    [0, 0, 0, 2, 0, 5, 0, 8, 9],
    [0, 0, 0, 3, 0, 4, 0, 0, 0],
    [0, 8, 3, 0, 0, 0, 0, 0, 7],
    [0, 0, 9, 0, 6, 3, 0, 0, 1],
    [0, 5, 6, 8, 0, 2, 0, 0, 0]
].

% A square that has its digit. Rows and columns are counted from 0.
:- type square ---> square(int, int, int).

sudoku(Level, Rows) :- solve(puzzle(Level), 0, given(puzzle(Level), 0), Rows).

:- func given(list(list(int)), int) = list(square).
given([], _) = [].
given([Row | Rows], R) = given_in(Row, R, 0) ++ given(Rows, R + 1).

:- func given_in(list(int), int, int) = list(square).
given_in([], _, _) = [].
given_in([Digit | Digits], R, C) = Squares :-
    Others = given_in(Digits, R, C + 1),
    ( if Digit = 0 then
        Squares = Others
    else
        Squares = [square(R, C, Digit) | Others]
    ).

:- pred solve(list(list(int))::in, int::in, list(square)::in, list(list(int))::out) is nondet.
solve([], _, _, []).
solve([Row | Rows], R, Squares, [Filled | Others]) :-
    fill(Row, R, 0, Squares, More, Filled),
    solve(Rows, R + 1, More, Others).

:- pred fill(list(int)::in, int::in, int::in, list(square)::in, list(square)::out, list(int)::out) is nondet.
fill([], _, _, Squares, Squares, []).
fill([Given | Row], R, C, Squares, Last, [Digit | Digits]) :-
    ( if Given = 0 then
        nondet_int_in_range(1, 9, Digit),
        fits(Squares, R, C, Digit),
        More = [square(R, C, Digit) | Squares]
    else
        Digit = Given,
        More = Squares
    ),
    fill(Row, R, C + 1, More, Last, Digits).

:- pred fits(list(square)::in, int::in, int::in, int::in) is semidet.
fits([], _, _, _).
fits([square(R, C, D) | Squares], Row, Column, Digit) :-
    ( if D = Digit then
        R \= Row,
        C \= Column,
        not ( R // 3 = Row // 3, C // 3 = Column // 3 )
    else
        true
    ),
    fits(Squares, Row, Column, Digit).
