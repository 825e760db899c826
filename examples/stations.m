% The stations of timetable.m, in a module of their own, so that other modules can speak of them too.

:- module stations.
:- interface.

:- type station ---> harbour ; market ; castle ; university ; airport.
