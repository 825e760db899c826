% How often each word stands in a text, the most frequent first, with a bar for each.
% Shown are characters and strings, sorting by insertion, and a `main` that writes a table.

:- module words.
:- interface.
:- import_module io.

:- pred main(io::di, io::uo) is det.

:- implementation.
:- import_module char, int, list, string.

:- func text = string.
text = "the more you know the more you know you do not know".

% A word and how often it stands in the text.
:- type count ---> count(string, int).

main(!IO) :- write_counts(sorted(counts(words(to_char_list(text)))), !IO).

% The words of a text: what stands between blanks.
:- func words(list(char)) = list(string).
words([]) = [].
words([Char | Chars]) = Words :-
    split([Char | Chars], Word, Rest),
    ( if Word = "" then
        Words = words(Rest)
    else
        Words = [Word | words(Rest)]
    ).

% split(Chars, Word, Rest): what stands before the first blank, and what stands behind it.
:- pred split(list(char)::in, string::out, list(char)::out) is det.
split([], "", []).
split([Char | Chars], Word, Rest) :-
    ( if Char = ' ' then
        Word = "",
        Rest = Chars
    else
        split(Chars, Others, Rest),
        Word = char_to_string(Char) ++ Others
    ).

:- func counts(list(string)) = list(count).
counts([]) = [].
counts([Word | Words]) = counted(Word, counts(Words)).

% The counts with one word more.
:- func counted(string, list(count)) = list(count).
counted(Word, []) = [count(Word, 1)].
counted(Word, [count(Other, N) | Counts]) = Result :-
    ( if Word = Other then
        Result = [count(Word, N + 1) | Counts]
    else
        Result = [count(Other, N) | counted(Word, Counts)]
    ).

% The greatest counts first; of equal ones the first stays first.
:- func sorted(list(count)) = list(count).
sorted([]) = [].
sorted([Count | Counts]) = inserted(Count, sorted(Counts)).

:- func inserted(count, list(count)) = list(count).
inserted(Count, []) = [Count].
inserted(count(Word, N), [count(Other, M) | Counts]) = Result :-
    ( if N >= M then
        Result = [count(Word, N), count(Other, M) | Counts]
    else
        Result = [count(Other, M) | inserted(count(Word, N), Counts)]
    ).

:- pred write_counts(list(count)::in, io::di, io::uo) is det.
write_counts([], !IO).
write_counts([count(Word, N) | Counts], !IO) :-
    Gap = copies(8 - count_code_points(Word), " "),
    io.write_string(Word ++ Gap ++ int_to_string(N) ++ " " ++ copies(N, "*") ++ "\n", !IO),
    write_counts(Counts, !IO).

% So many copies of a text; none where the number is below 1.
:- func copies(int, string) = string.
copies(N, Text) = Copies :-
    ( if N < 1 then
        Copies = ""
    else
        Copies = Text ++ copies(N - 1, Text)
    ).
