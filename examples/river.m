% The farmer with a wolf, a goat and a cabbage at a river. The boat takes the farmer and one thing; the wolf and the
% goat, and the goat and the cabbage, mustn't be alone.
% Shown is a planner: places as terms, moves as rules, and a search that never comes back to a place.

:- module river.
:- interface.
:- import_module list.

:- type move ---> alone ; with_wolf ; with_goat ; with_cabbage.

% The moves that bring all to the far bank.
:- pred plan(list(move)::out) is nondet.

:- implementation.

:- type bank ---> near ; far.

% Where the farmer, the wolf, the goat and the cabbage are.
:- type place ---> at(bank, bank, bank, bank).

plan(Moves) :- reach(at(near, near, near, near), [], Moves).

% reach(Place, Before, Moves): the moves from Place to the end that come to no place of Before.
:- pred reach(place::in, list(place)::in, list(move)::out) is nondet.
reach(Place, Before, Moves) :-
    ( if Place = at(far, far, far, far) then
        Moves = []
    else
        Seen = [Place | Before],
        move(Place, Move, Next),
        is_safe(Next),
        not member(Next, Seen),
        reach(Next, Seen, Rest),
        Moves = [Move | Rest]
    ).

:- pred move(place::in, move::out, place::out) is nondet.
move(at(Here, Wolf, Goat, Cabbage), alone, at(other(Here), Wolf, Goat, Cabbage)).
move(at(Here, Here, Goat, Cabbage), with_wolf, at(other(Here), other(Here), Goat, Cabbage)).
move(at(Here, Wolf, Here, Cabbage), with_goat, at(other(Here), Wolf, other(Here), Cabbage)).
move(at(Here, Wolf, Goat, Here), with_cabbage, at(other(Here), Wolf, Goat, other(Here))).

:- func other(bank) = bank.
other(near) = far.
other(far) = near.

:- pred is_safe(place::in) is semidet.
is_safe(at(Farmer, Wolf, Goat, Cabbage)) :-
    ( if Farmer = Goat then
        true
    else
        Goat \= Wolf,
        Goat \= Cabbage
    ).
