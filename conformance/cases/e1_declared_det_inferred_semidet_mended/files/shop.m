:- module shop.
:- interface.
:- import_module list.
:- pred head(list(T)::in, T::out) is semidet.
:- implementation.
head([X | _], X).
