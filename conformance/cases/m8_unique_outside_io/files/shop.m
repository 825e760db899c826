:- module shop.
:- interface.
:- implementation.
:- pred takes(int::di) is det.
takes(_).
