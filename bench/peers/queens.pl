% Queens on a chess board, so that none attacks another: examples/queens.m in Prolog.

queens(N, Queens) :-
    up_to(1, N, Rows),
    place(Rows, [], Queens).

up_to(Low, High, Numbers) :-
    (   Low > High
    ->  Numbers = []
    ;   Numbers = [Low | Rest],
        Next is Low + 1,
        up_to(Next, High, Rest)
    ).

place([], _, []).
place([Row | Rows], Placed, [Queen | Queens]) :-
    choose(Queen, [Row | Rows], Others),
    is_safe(Placed, Queen, 1),
    place(Others, [Queen | Placed], Queens).

choose(X, [X | Xs], Xs).
choose(X, [Y | Ys], [Y | Zs]) :- choose(X, Ys, Zs).

% The list stands first here, so that a Prolog which looks at first arguments alone leaves no choice behind.
is_safe([], _, _).
is_safe([Other | Others], Queen, Distance) :-
    Queen =\= Other + Distance,
    Queen =\= Other - Distance,
    Next is Distance + 1,
    is_safe(Others, Queen, Next).

main(N) :- queens(N, Queens), write(Queens), nl, fail.
main(_).
