% The function of Takeuchi, as McCarthy changed it: calls of integers and nothing else.

tak(X, Y, Z, Result) :-
    (   X =< Y
    ->  Result = Z
    ;   X1 is X - 1,
        Y1 is Y - 1,
        Z1 is Z - 1,
        tak(X1, Y, Z, A),
        tak(Y1, Z, X, B),
        tak(Z1, X, Y, C),
        tak(A, B, C, Result)
    ).

main(X, Y, Z) :- tak(X, Y, Z, Result), write(Result), nl.
