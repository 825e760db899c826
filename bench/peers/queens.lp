% Queens on a chess board of n columns, so that none attacks another: a model for each placing.

#const n = 8.

1 { queen(Column, Row) : Row = 1..n } 1 :- Column = 1..n.
:- queen(A, Row), queen(B, Row), A < B.
:- queen(A, Row), queen(B, Other), A < B, |Row - Other| = B - A.

#show queen/2.
