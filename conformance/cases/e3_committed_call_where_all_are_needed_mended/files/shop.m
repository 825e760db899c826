:- module shop.
:- interface.
:- type drink ---> green ; black.
:- pred pick(drink::out) is cc_multi.
:- pred serve(drink::out) is cc_multi.
:- implementation.
pick(green).
pick(black).
serve(X) :- pick(X).
