:- module shop.
:- interface.
:- type shelf ---> none ; box(int).
:- type till ---> none ; cash(int).
:- pred is_empty is semidet.
:- implementation.
is_empty :- X = none, X = none.
