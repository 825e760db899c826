:- module drinks.
:- interface.
:- type drink.
:- implementation.
:- type drink ---> green ; black.
