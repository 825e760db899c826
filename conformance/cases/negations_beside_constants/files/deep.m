:- module deep.

% Sixty negations, one in another, of which each holds a constant too. The innermost goal waits for V, which the last
% goal of the clause gives: that is seen without trying them, so it takes no time that doubles with each level.

:- interface.

:- pred p(int::in, int::out) is semidet.

:- implementation.

:- import_module int.

:- type colour ---> red ; green.

:- pred need(int::in) is semidet.
need(V) :- V > 0.

p(X, V) :- not (not (not (not (not (not (not (not (not (not (not (not (not (not (not (not (not (not (not (not (not (not (not (not (not (not (not (not (not (not (not (not (not (not (not (not (not (not (not (not (not (not (not (not (not (not (not (not (not (not (not (not (not (not (not (not (not (not (not (not (need(V), C60 = red), C59 = red), C58 = red), C57 = red), C56 = red), C55 = red), C54 = red), C53 = red), C52 = red), C51 = red), C50 = red), C49 = red), C48 = red), C47 = red), C46 = red), C45 = red), C44 = red), C43 = red), C42 = red), C41 = red), C40 = red), C39 = red), C38 = red), C37 = red), C36 = red), C35 = red), C34 = red), C33 = red), C32 = red), C31 = red), C30 = red), C29 = red), C28 = red), C27 = red), C26 = red), C25 = red), C24 = red), C23 = red), C22 = red), C21 = red), C20 = red), C19 = red), C18 = red), C17 = red), C16 = red), C15 = red), C14 = red), C13 = red), C12 = red), C11 = red), C10 = red), C9 = red), C8 = red), C7 = red), C6 = red), C5 = red), C4 = red), C3 = red), C2 = red), C1 = red), V = X.
