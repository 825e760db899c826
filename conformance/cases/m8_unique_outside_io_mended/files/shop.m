:- module shop.
:- interface.
:- implementation.
:- pred takes(int::in) is det.
takes(_).
