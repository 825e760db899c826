:- module tools.
:- interface.
:- import_module list.
:- inst filled == bound([ground | ground]).
:- pred one(T::in, list(T)::out(filled)) is det.
:- pred first(list(T)::in(filled), T::out) is det.
:- implementation.
one(X, [X]).
first([X | _], X).
