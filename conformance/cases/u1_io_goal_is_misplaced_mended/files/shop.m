:- module shop.
:- interface.
:- import_module io.
:- pred main(io::di, io::uo) is det.
:- implementation.
main(!IO) :- ( if 1 = 1 then io.write_string("open\n", !IO) else true ).
