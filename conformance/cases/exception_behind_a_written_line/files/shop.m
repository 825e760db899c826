:- module shop.
:- interface.
:- import_module io.
:- pred main(io::di, io::uo) is det.
:- implementation.
:- import_module int.
main(!IO) :-
    io.write_string("open\n", !IO),
    io.write_int(price(0), !IO),
    io.nl(!IO).
:- func price(int) = int.
price(Share) = 100 // Share.
