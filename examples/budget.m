% A household's budget: what was spent in a month, what may be spent, and rules that say where it is too much.
% Shown are functions, a switch that covers each category, a state variable for the output, and a `main`.

:- module budget.
:- interface.
:- import_module io.

:- pred main(io::di, io::uo) is det.

:- implementation.
:- import_module int, list, string.

:- type category ---> rent ; food ; travel ; leisure.
:- type entry ---> entry(category, int).

% Whether a category is within its limit, close to it, or over it by so much.
:- type verdict ---> within ; close ; over(int).

:- func spent = list(entry).
spent = [
    entry(rent, 950), entry(food, 184), entry(travel, 96), entry(food, 233), entry(leisure, 60), entry(travel, 41)
].

:- func limit(category) = int.
limit(rent) = 1000.
limit(food) = 400.
limit(travel) = 150.
limit(leisure) = 120.

:- func total(category, list(entry)) = int.
total(_, []) = 0.
total(Category, [entry(Other, Amount) | Entries]) = Total :-
    Rest = total(Category, Entries),
    ( if Category = Other then
        Total = Amount + Rest
    else
        Total = Rest
    ).

:- func verdict(category) = verdict.
verdict(Category) = Verdict :-
    Total = total(Category, spent),
    Limit = limit(Category),
    ( if Total > Limit then
        Verdict = over(Total - Limit)
    else if Total * 10 >= Limit * 9 then
        Verdict = close
    else
        Verdict = within
    ).

:- pred category(category::out) is multi.
category(rent).
category(food).
category(travel).
category(leisure).

% warning(Category, Amount): the category is over its limit by Amount.
:- pred warning(category::out, int::out) is nondet.
warning(Category, Amount) :- category(Category), verdict(Category) = over(Amount).

main(!IO) :-
    report(rent, "rent", !IO),
    report(food, "food", !IO),
    report(travel, "travel", !IO),
    report(leisure, "leisure", !IO).

:- pred report(category::in, string::in, io::di, io::uo) is det.
report(Category, Name, !IO) :-
    Total = int_to_string(total(Category, spent)),
    Limit = int_to_string(limit(Category)),
    io.write_string(Name ++ ": " ++ Total ++ " of " ++ Limit ++ advice(verdict(Category)) ++ "\n", !IO).

:- func advice(verdict) = string.
advice(within) = "".
advice(close) = ", close to the limit".
advice(over(Amount)) = ", over the limit by " ++ int_to_string(Amount).
