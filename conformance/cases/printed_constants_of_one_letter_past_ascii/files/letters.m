:- module letters.
:- interface.
:- type letter ---> 'é' ; 'ß' ; '日'.
:- pred letter(letter::out) is nondet.
:- implementation.
letter('é').
letter('日').
