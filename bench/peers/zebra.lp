% Five houses in a row, each with its colour, nation, drink, tobacco and animal: who keeps the zebra, and who drinks water?

house(1..5).
thing(colour, (red;green;ivory;yellow;blue)).
thing(nation, (english;spanish;ukrainian;norwegian;japanese)).
thing(drink, (coffee;tea;milk;juice;water)).
thing(tobacco, (old_gold;kools;chesterfield;lucky_strike;parliament)).
thing(animal, (dog;snails;fox;horse;zebra)).

1 { in(Thing, House) : house(House) } 1 :- thing(_, Thing).
:- thing(Kind, A), thing(Kind, B), A < B, in(A, House), in(B, House).

beside(A, B) :- house(A), house(B), |A - B| = 1.
same(english, red;spanish, dog;coffee, green;ukrainian, tea;old_gold, snails;kools, yellow;lucky_strike, juice;japanese, parliament).
near(chesterfield, fox;kools, horse;norwegian, blue).

:- same(A, B), in(A, House), not in(B, House).
:- near(A, B), in(A, House), in(B, Other), not beside(House, Other).
:- in(ivory, House), not in(green, House + 1).
:- not in(milk, 3).
:- not in(norwegian, 1).

#show.
#show zebra(House) : in(zebra, House).
#show water(House) : in(water, House).
