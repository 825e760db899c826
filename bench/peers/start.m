% Nearly nothing: what a start takes.

:- module start.
:- interface.

:- pred nothing is det.

:- implementation.

nothing.
