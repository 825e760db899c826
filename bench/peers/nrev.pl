% Naive reverse: a list is reversed so many times, each time by appending at the end.

reverses(Rounds, Length, First) :-
    up_to(1, Length, Numbers),
    rounds(Rounds, Numbers, [First | _]).

up_to(Low, High, Numbers) :-
    (   Low > High
    ->  Numbers = []
    ;   Numbers = [Low | Rest],
        Next is Low + 1,
        up_to(Next, High, Rest)
    ).

rounds(Rounds, Numbers, Last) :-
    (   Rounds > 0
    ->  reversed(Numbers, Reversed),
        Left is Rounds - 1,
        rounds(Left, Reversed, Last)
    ;   Last = Numbers
    ).

reversed([], []).
reversed([X | Xs], Zs) :-
    reversed(Xs, Ys),
    joined(Ys, [X], Zs).

joined([], Ys, Ys).
joined([X | Xs], Ys, [X | Zs]) :- joined(Xs, Ys, Zs).

main(Rounds, Length) :- reverses(Rounds, Length, First), write(First), nl.
