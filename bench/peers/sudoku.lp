% The hard sudoku of sudoku.m.

given(0,0,9;0,3,1;0,5,7;0,7,3).
given(1,3,4;1,4,3;1,6,5).
given(2,0,8;2,2,5;2,8,4).
given(3,2,4;3,4,8;3,8,5).
given(4,3,2;4,5,5;4,7,8;4,8,9).
given(5,3,3;5,5,4).
given(6,1,8;6,2,3;6,8,7).
given(7,2,9;7,4,6;7,5,3;7,8,1).
given(8,1,5;8,2,6;8,3,8;8,5,2).

1 { square(R, C, Digit) : Digit = 1..9 } 1 :- R = 0..8, C = 0..8.
1 { square(R, C, Digit) : C = 0..8 } 1 :- R = 0..8, Digit = 1..9.
1 { square(R, C, Digit) : R = 0..8 } 1 :- C = 0..8, Digit = 1..9.
1 { square(R, C, Digit) : R = 0..8, C = 0..8, R / 3 = Down, C / 3 = Along } 1 :- Down = 0..2, Along = 0..2, Digit = 1..9.
:- given(R, C, Digit), not square(R, C, Digit).

#show square/3.
