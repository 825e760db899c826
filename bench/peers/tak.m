% The function of Takeuchi, as McCarthy changed it: calls of integers and nothing else.

:- module tak.
:- interface.

:- func tak(int, int, int) = int.

:- implementation.
:- import_module int.

tak(X, Y, Z) = Result :-
    ( if X =< Y then
        Result = Z
    else
        Result = tak(tak(X - 1, Y, Z), tak(Y - 1, Z, X), tak(Z - 1, X, Y))
    ).
