% A map of roads. A road is a fact: where it begins, where it ends, and what it is.
% Shown are enumeration types, facts, and a query that lists every answer in the order of the source.

:- module roads.
:- interface.

:- type town ---> chur ; thusis ; splugen ; chiavenna ; tiefencastel ; silvaplana ; davos ; susch ; tirano.
:- type kind ---> motorway ; main_road ; mountain_pass.

:- pred road(town::out, town::out, kind::out) is nondet.
:- pred closed_in_winter(town::out, town::out) is nondet.

:- implementation.

road(chur, thusis, motorway).
road(thusis, splugen, motorway).
road(splugen, chiavenna, mountain_pass).
road(thusis, tiefencastel, main_road).
road(tiefencastel, silvaplana, mountain_pass).
road(tiefencastel, davos, main_road).
road(davos, susch, mountain_pass).
road(susch, silvaplana, main_road).
road(silvaplana, chiavenna, mountain_pass).
road(silvaplana, tirano, mountain_pass).

closed_in_winter(splugen, chiavenna).
closed_in_winter(davos, susch).
