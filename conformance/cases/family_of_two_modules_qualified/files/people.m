:- module people.
:- interface.
:- type person ---> ann ; bob ; cid.
