% A loop that counts from one number up to another.

count(I, N) :-
    (   I < N
    ->  J is I + 1,
        count(J, N)
    ;   true
    ).

main(N) :- count(1, N), write(true), nl.
