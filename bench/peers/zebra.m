% Five houses in a row, each with its colour, nation, drink, tobacco and animal: who keeps the zebra, and who drinks
% water? Each thing is the number of its house; what is chosen is tested as soon as it can be.

:- module zebra.
:- interface.

% zebra(Zebra, Water): the houses of the zebra and of the water.
:- pred zebra(int::out, int::out) is nondet.

% zebras(Rounds, Round, Zebra, Water): the same, so many times.
:- pred zebras(int::in, int::out, int::out, int::out) is nondet.

:- implementation.
:- import_module int, list.

zebras(Rounds, Round, Zebra, Water) :-
    nondet_int_in_range(1, Rounds, Round),
    zebra(Zebra, Water).

zebra(Zebra, Water) :-
    houses(Red, Green, Ivory, Yellow, Blue),
    Green = Ivory + 1,
    is_beside(1, Blue),
    houses(English, Spanish, Ukrainian, Norwegian, Japanese),
    English = Red,
    Norwegian = 1,
    houses(Coffee, Tea, Milk, Juice, Water),
    Coffee = Green,
    Tea = Ukrainian,
    Milk = 3,
    houses(OldGold, Kools, Chesterfield, LuckyStrike, Parliament),
    Kools = Yellow,
    LuckyStrike = Juice,
    Parliament = Japanese,
    houses(Dog, Snails, Fox, Horse, Zebra),
    Dog = Spanish,
    Snails = OldGold,
    is_beside(Fox, Chesterfield),
    is_beside(Horse, Kools).

% Five things in five houses.
:- pred houses(int::out, int::out, int::out, int::out, int::out) is nondet.
houses(A, B, C, D, E) :-
    delete([1, 2, 3, 4, 5], A, Without1),
    delete(Without1, B, Without2),
    delete(Without2, C, Without3),
    delete(Without3, D, Without4),
    delete(Without4, E, _).

:- pred is_beside(int::in, int::in) is semidet.
is_beside(A, B) :- ( A = B + 1 ; A = B - 1 ).
