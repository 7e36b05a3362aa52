:- use_module(library(chr)).
:- use_module(library(lists)).
:- style_check(-singleton).
:- chr_option(debug, off).
:- chr_option(optimize, full).

% value(Number, Expression, Value): the value, a whole number of 32 bits; where there is none, the run ends with the number.
value(Number, Expression, Value) :-
    catch(Value is Expression, error(evaluation_error(_), _), throw(ends(Number))),
    (   Value >= -2147483648, Value =< 2147483647
    ->  true
    ;   throw(ends(Number))
    ).

% Runs every goal in an empty store and prints how it ends, then the facts that remain. What a run did is taken back.
main :-
    goals(Count),
    forall(between(1, Count, Goal), print_run(Goal)).

print_run(Goal) :-
    catch(ended(Goal, Number, Facts), ends(Number), Facts = []),
    format("ends ~d~n", [Number]),
    msort(Facts, Sorted),
    forall(member(Fact, Sorted), print_fact(Fact)).

% ended(Goal, Number, Facts): 0 and the facts that remain; 1 where the goal fails.
% The number is given only behind the goal, since SWI-Prolog matches what is thrown before it takes back bindings.
ended(Goal, Number, Facts) :-
    goal(Goal),
    !,
    Number = 0,
    findall(Fact, current_chr_constraint(Fact), Facts).
ended(_, 1, []).

% A fact's symbol without its s, and its arguments.
print_fact(Fact) :-
    Fact =.. [Symbol|Arguments],
    atom_concat(s, Number, Symbol),
    atomic_list_concat([Number|Arguments], ' ', Line),
    format("~w~n", [Line]).

% The least time in microseconds that a run of the first goal took, over so many batches of so many runs.
time(Batches, Runs) :-
    findall(Time, (between(1, Batches, _), batch(Runs, Time)), Times),
    min_list(Times, Least),
    format("~6f~n", [Least]).

batch(Runs, Time) :-
    get_time(Before),
    (   between(1, Runs, _), goal(1), fail
    ;   true
    ),
    get_time(After),
    Time is (After - Before) * 1000000 / Runs.

