:- module shop.
:- interface.
:- implementation.
:- import_module int.
:- pred big(int::in) is semidet.
big(X) :- (X mod 7) mod 2 = 1.
