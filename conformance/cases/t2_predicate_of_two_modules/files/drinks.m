:- module drinks.
:- interface.
:- type drink ---> green ; black.
