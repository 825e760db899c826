% A crossword of three rows and three columns.
% Shown are strings and characters in facts, one predicate called with some arguments known, and an inequality.

:- module crossword.
:- interface.
:- import_module list.

% crossword(Rows, Columns): words for the rows and the columns; no square whose rows are its columns.
:- pred crossword(list(string)::out, list(string)::out) is nondet.

:- implementation.

crossword([Row1, Row2, Row3], [Column1, Column2, Column3]) :-
    word(Row1, A, B, C),
    word(Column1, A, D, G),
    Row1 \= Column1,
    word(Row2, D, E, F),
    word(Column2, B, E, H),
    word(Row3, G, H, I),
    word(Column3, C, F, I).

% A word and its letters.
:- pred word(string::out, char::out, char::out, char::out) is multi.
word("ace", a, c, e).
word("ape", a, p, e).
word("arm", a, r, m).
word("art", a, r, t).
word("ate", a, t, e).
word("ear", e, a, r).
word("eat", e, a, t).
word("era", e, r, a).
word("ice", i, c, e).
word("net", n, e, t).
word("one", o, n, e).
word("pea", p, e, a).
word("rye", r, y, e).
word("tea", t, e, a).
word("ten", t, e, n).
