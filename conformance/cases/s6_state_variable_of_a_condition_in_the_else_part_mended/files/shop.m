:- module shop.
:- interface.
:- type drink ---> green ; black.
:- pred sells(drink::out) is det.
:- implementation.
:- pred brew(drink::in, drink::out) is semidet.
brew(green, black).
sells(D) :-
    ( some [!B] ( !:B = green, brew(!B) ) -> D = !.B ; D = green ).
