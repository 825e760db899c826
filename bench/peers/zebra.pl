% Five houses in a row, each with its colour, nation, drink, tobacco and animal: who keeps the zebra, and who drinks
% water? Each thing is the number of its house, and the search is that of zebra.m.

zebra(Zebra, Water) :-
    houses(Red, Green, Ivory, Yellow, Blue),
    Green =:= Ivory + 1,
    is_beside(1, Blue),
    houses(English, Spanish, Ukrainian, Norwegian, Japanese),
    English =:= Red,
    Norwegian =:= 1,
    houses(Coffee, Tea, Milk, Juice, Water),
    Coffee =:= Green,
    Tea =:= Ukrainian,
    Milk =:= 3,
    houses(OldGold, Kools, Chesterfield, LuckyStrike, Parliament),
    Kools =:= Yellow,
    LuckyStrike =:= Juice,
    Parliament =:= Japanese,
    houses(Dog, Snails, Fox, Horse, Zebra),
    Dog =:= Spanish,
    Snails =:= OldGold,
    is_beside(Fox, Chesterfield),
    is_beside(Horse, Kools).

houses(A, B, C, D, E) :-
    without([1, 2, 3, 4, 5], A, Without1),
    without(Without1, B, Without2),
    without(Without2, C, Without3),
    without(Without3, D, Without4),
    without(Without4, E, _).

without([X | Xs], X, Xs).
without([Y | Xs], X, [Y | Ys]) :- without(Xs, X, Ys).

is_beside(A, B) :- ( A =:= B + 1 -> true ; A =:= B - 1 ).

main(Rounds) :- between(1, Rounds, _), zebra(Zebra, Water), write(Zebra-Water), nl, fail.
main(_).
