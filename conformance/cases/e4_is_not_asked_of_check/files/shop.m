:- module shop.
:- interface.
:- import_module io.
:- pred start(io::di, io::uo) is det.
:- implementation.
start(!IO) :- io.write_string("open\n", !IO).
