:- module shop.
:- interface.
:- import_module list.
:- pred head(list(T)::in, T::out) is det.
:- implementation.
head([X | _], X).
