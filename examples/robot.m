% A robot that fetches the wine from a locked cellar: rooms and doors as a graph, and a planner over it.
% Shown are a state as a term, plans of growing length by a choice of integers, and the shortest one by `--first`.

:- module robot.
:- interface.
:- import_module list.

:- type room ---> hall ; kitchen ; study ; cellar.
:- type thing ---> key ; wine.
:- type step ---> go(room) ; take(thing).

% plan(Most, Steps): at most so many steps bring the wine to the hall. Shorter plans come first.
:- pred plan(int::in, list(step)::out) is nondet.

:- implementation.
:- import_module int.

% Where the robot is, and what it carries.
:- type state ---> at(room, list(thing)).

plan(Most, Steps) :-
    nondet_int_in_range(1, Most, Length),
    reach(Length, at(hall, []), [], Steps).

% reach(Length, State, Before, Steps): so many steps lead from State to the end and come to no state of Before.
:- pred reach(int::in, state::in, list(state)::in, list(step)::out) is nondet.
reach(Length, State, Before, Steps) :-
    ( if State = at(hall, Things), member(wine, Things) then
        Length = 0,
        Steps = []
    else
        Length > 0,
        step(Step, State, Next),
        not member(Next, Before),
        reach(Length - 1, Next, [State | Before], Rest),
        Steps = [Step | Rest]
    ).

% step(Step, State, Next): what the robot can do in a state, and the state that follows.
:- pred step(step::out, state::in, state::out) is nondet.
step(go(To), at(From, Things), at(To, Things)) :-
    door(From, To),
    may_open(To, Things).
step(take(Thing), at(Room, Things), at(Room, [Thing | Things])) :-
    lies_in(Thing, Room),
    not member(Thing, Things).

:- pred door(room::in, room::out) is nondet.
door(From, To) :- joined(From, To).
door(From, To) :- joined(To, From).

% Doors open both ways, so each is told once.
:- pred joined(room::out, room::out) is multi.
joined(hall, kitchen).
joined(hall, study).
joined(kitchen, cellar).

:- pred may_open(room::in, list(thing)::in) is semidet.
may_open(Room, Things) :- ( Room \= cellar ; member(key, Things) ).

:- pred lies_in(thing::out, room::in) is semidet.
lies_in(key, study).
lies_in(wine, cellar).
