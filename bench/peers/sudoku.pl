% A sudoku: empty squares are filled row by row, each with a digit that no square of its row, column or box has.
% The search is that of sudoku.m.

puzzle(easy, [
    [9, 0, 2, 1, 5, 7, 6, 3, 8],
    [6, 1, 7, 4, 3, 8, 5, 9, 2],
    [8, 3, 5, 9, 0, 6, 7, 1, 4],
    [2, 9, 4, 6, 8, 1, 3, 7, 5],
    [3, 6, 1, 2, 7, 5, 4, 8, 9],
    [5, 7, 8, 3, 9, 4, 1, 2, 0],
    [1, 8, 3, 5, 4, 9, 2, 6, 7],
    [4, 2, 9, 7, 6, 3, 8, 5, 1],
    [7, 5, 6, 8, 1, 2, 9, 4, 3]
]).
puzzle(hard, [
    [9, 0, 0, 1, 0, 7, 0, 3, 0],
    [0, 0, 0, 4, 3, 0, 5, 0, 0],
    [8, 0, 5, 0, 0, 0, 0, 0, 4],
    [0, 0, 4, 0, 8, 0, 0, 0, 5],
    [0, 0, 0, 2, 0, 5, 0, 8, 9],
    [0, 0, 0, 3, 0, 4, 0, 0, 0],
    [0, 8, 3, 0, 0, 0, 0, 0, 7],
    [0, 0, 9, 0, 6, 3, 0, 0, 1],
    [0, 5, 6, 8, 0, 2, 0, 0, 0]
]).

sudoku(Level, Rows) :-
    puzzle(Level, Puzzle),
    given(Puzzle, 0, Squares),
    solve(Puzzle, 0, Squares, Rows).

given([], _, []).
given([Row | Rows], R, Squares) :-
    given_in(Row, R, 0, Squares, Others),
    Next is R + 1,
    given(Rows, Next, Others).

given_in([], _, _, Others, Others).
given_in([Digit | Digits], R, C, Squares, Others) :-
    (   Digit =:= 0
    ->  Squares = Rest
    ;   Squares = [square(R, C, Digit) | Rest]
    ),
    Next is C + 1,
    given_in(Digits, R, Next, Rest, Others).

solve([], _, _, []).
solve([Row | Rows], R, Squares, [Filled | Others]) :-
    fill(Row, R, 0, Squares, More, Filled),
    Next is R + 1,
    solve(Rows, Next, More, Others).

fill([], _, _, Squares, Squares, []).
fill([Given | Row], R, C, Squares, Last, [Digit | Digits]) :-
    (   Given =:= 0
    ->  between(1, 9, Digit),
        fits(Squares, R, C, Digit),
        More = [square(R, C, Digit) | Squares]
    ;   Digit = Given,
        More = Squares
    ),
    Next is C + 1,
    fill(Row, R, Next, More, Last, Digits).

fits([], _, _, _).
fits([square(R, C, D) | Squares], Row, Column, Digit) :-
    (   D =:= Digit
    ->  R =\= Row,
        C =\= Column,
        \+ ( R // 3 =:= Row // 3, C // 3 =:= Column // 3 )
    ;   true
    ),
    fits(Squares, Row, Column, Digit).

main(Level) :- sudoku(Level, Rows), write(Rows), nl, fail.
main(_).
