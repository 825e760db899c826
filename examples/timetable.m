% A timetable. Times are constants whose names stand in quotes.
% Shown are two modules: this one imports the stations and shows its own predicates; and quoted names in answers.

:- module timetable.
:- interface.
:- import_module stations.

:- type tram ---> line_1 ; line_2.
:- type time ---> '06:05' ; '06:12' ; '06:21' ; '06:30' ; '06:38' ; '06:44'.

% leaves(Tram, Station, Time)
:- pred leaves(tram::out, station::out, time::out) is nondet.
:- pred ends(tram::out, station::out, time::out) is nondet.

:- implementation.

leaves(line_1, harbour, '06:05').
leaves(line_1, market, '06:12').
leaves(line_1, castle, '06:21').
ends(line_1, university, '06:30').

leaves(line_2, airport, '06:12').
leaves(line_2, university, '06:30').
leaves(line_2, market, '06:38').
ends(line_2, harbour, '06:44').
