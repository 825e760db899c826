% Ways over the map of roads.m that come to no town twice, in summer or in winter.
% Shown are rules over facts of another module, a switch on a season, negation, and a search that gives every answer.

:- module routes.
:- interface.
:- import_module list, roads.

:- type season ---> summer ; winter.

% route(Season, From, To, Towns): a way from From to To, with all its towns.
:- pred route(season::in, town::in, town::in, list(town)::out) is nondet.

:- implementation.

route(Season, From, To, [From | Towns]) :- way(Season, From, To, [From], Towns).

% way(Season, From, To, Seen, Towns): the towns behind From on a way that comes to none of Seen.
:- pred way(season::in, town::in, town::in, list(town)::in, list(town)::out) is nondet.
way(Season, From, To, Seen, Towns) :-
    ( if From = To then
        Towns = []
    else
        joined(From, Next),
        is_open(Season, From, Next),
        not member(Next, Seen),
        way(Season, Next, To, [Next | Seen], Rest),
        Towns = [Next | Rest]
    ).

% Roads go both ways.
:- pred joined(town::in, town::out) is nondet.
joined(From, To) :- road(From, To, _).
joined(From, To) :- road(To, From, _).

:- pred is_open(season::in, town::in, town::in) is semidet.
is_open(summer, _, _).
is_open(winter, From, To) :- not closed_in_winter(From, To), not closed_in_winter(To, From).
