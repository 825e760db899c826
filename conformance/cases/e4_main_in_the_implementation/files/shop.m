:- module shop.
:- interface.
:- import_module io.
:- implementation.
:- pred main(io::di, io::uo) is det.
main(!IO) :- io.write_string("open\n", !IO).
