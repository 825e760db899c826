:- module shop.
:- interface.
:- type shelf ---> none ; box(int).
:- type till ---> none ; cash(int).
:- pred is_empty is semidet.
:- implementation.
:- pred shelf_now(shelf::out) is det.
shelf_now(none).
is_empty :- shelf_now(X), X = none.
