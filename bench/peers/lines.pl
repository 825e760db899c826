% Writes so many lines, each by goals of its own.

write_lines(I, N) :-
    (   I > N
    ->  true
    ;   write('line '),
        write(I),
        nl,
        J is I + 1,
        write_lines(J, N)
    ).

main(N) :- write_lines(1, N).
