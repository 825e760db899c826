:- module tea.
:- interface.
:- type drink ---> mint ; rooibos.
:- pred sells(drink::out) is nondet.
:- implementation.
sells(mint).
sells(rooibos).
