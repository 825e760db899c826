:- module shop.
:- interface.
:- implementation.
:- pred takes(int).
:- pred gives(int::di) is det.
:- mode takes(di) is det.
takes(_).
gives(_).
