:- module drinks.
:- interface.
:- implementation.
:- type drink ---> green ; black.
