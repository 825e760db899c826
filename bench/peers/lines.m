% Writes so many lines, each by goals of its own.

:- module lines.
:- interface.
:- import_module io.

:- pred main(io::di, io::uo) is det.

:- implementation.
:- import_module int.

main(!IO) :- write_lines(1, 100000, !IO).

:- pred write_lines(int::in, int::in, io::di, io::uo) is det.
write_lines(I, N, !IO) :-
    ( if I > N then
        true
    else
        io.write_string("line ", !IO),
        io.write_int(I, !IO),
        io.nl(!IO),
        write_lines(I + 1, N, !IO)
    ).
