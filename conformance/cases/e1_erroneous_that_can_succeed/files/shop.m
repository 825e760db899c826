:- module shop.
:- interface.
:- implementation.
:- pred stops is erroneous.
stops.
