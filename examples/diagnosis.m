% Why a car doesn't start: rules lead from what is seen to a cause, and each answer tells how.
% Shown are rules as facts of the program, an explanation as a term, and a negation that finds what to look at next.

:- module diagnosis.
:- interface.
:- import_module list.

:- type finding
    --->  starter_is_silent ; starter_turns ; lamps_are_dark ; lamps_are_bright ; lamps_were_left_on
    ;     crust_on_terminals ; gauge_at_zero ; smell_of_petrol ; rain_at_night
    ;     no_current ; no_spark
    ;     flat_battery ; bad_contact ; broken_starter ; empty_tank ; damp_ignition.

% Why a finding holds: it was seen, or the named rule concludes it from others.
:- type reason ---> seen(finding) ; by(string, finding, list(reason)).

% cause(Seen, Cause, Reason): what is seen has this cause.
:- pred cause(list(finding)::in, finding::out, reason::out) is nondet.

% look_for(Seen, Finding, Cause): the finding isn't known; with it the cause would be.
:- pred look_for(list(finding)::in, finding::out, finding::out) is nondet.

:- implementation.

:- pred rule(string::out, finding::out, list(finding)::out) is multi.
rule("current", no_current, [starter_is_silent, lamps_are_dark]).
rule("spark", no_spark, [starter_turns, smell_of_petrol]).
rule("battery", flat_battery, [no_current, lamps_were_left_on]).
rule("contact", bad_contact, [no_current, crust_on_terminals]).
rule("starter", broken_starter, [starter_is_silent, lamps_are_bright]).
rule("tank", empty_tank, [starter_turns, gauge_at_zero]).
rule("damp", damp_ignition, [no_spark, rain_at_night]).

:- pred can_be_seen(finding::out) is multi.
can_be_seen(starter_is_silent).
can_be_seen(starter_turns).
can_be_seen(lamps_are_dark).
can_be_seen(lamps_are_bright).
can_be_seen(lamps_were_left_on).
can_be_seen(crust_on_terminals).
can_be_seen(gauge_at_zero).
can_be_seen(smell_of_petrol).
can_be_seen(rain_at_night).

:- pred is_cause(finding::in) is semidet.
is_cause(flat_battery).
is_cause(bad_contact).
is_cause(broken_starter).
is_cause(empty_tank).
is_cause(damp_ignition).

cause(Seen, Cause, Reason) :-
    rule(_, Cause, _),
    is_cause(Cause),
    holds(Seen, Cause, Reason).

:- pred holds(list(finding)::in, finding::in, reason::out) is nondet.
holds(Seen, Finding, seen(Finding)) :- member(Finding, Seen).
holds(Seen, Finding, by(Rule, Finding, Reasons)) :-
    rule(Rule, Finding, Conditions),
    all_hold(Seen, Conditions, Reasons).

:- pred all_hold(list(finding)::in, list(finding)::in, list(reason)::out) is nondet.
all_hold(_, [], []).
all_hold(Seen, [Finding | Findings], [Reason | Reasons]) :-
    holds(Seen, Finding, Reason),
    all_hold(Seen, Findings, Reasons).

% Two findings that can't both be.
:- pred is_opposite(finding::in, finding::out) is semidet.
is_opposite(starter_is_silent, starter_turns).
is_opposite(starter_turns, starter_is_silent).
is_opposite(lamps_are_dark, lamps_are_bright).
is_opposite(lamps_are_bright, lamps_are_dark).

look_for(Seen, Finding, Cause) :-
    can_be_seen(Finding),
    not member(Finding, Seen),
    not ( is_opposite(Finding, Opposite), member(Opposite, Seen) ),
    cause([Finding | Seen], Cause, _),
    not cause(Seen, Cause, _).
