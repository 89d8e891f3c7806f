% Atoms that are set from outside, by a value here.
#external on(1). [free]
#external on(2). [true]
#external on(3). [false]
#external on(4). [free]
lit(X) :- on(X), not broken(X).
broken(4) :- on(4), not fixed(4).
fixed(4) :- lit(4).
dark :- not lit(1), not lit(2), not lit(3).
{ look } :- lit(1).
some :- 2 { lit(1); lit(2); lit(3); lit(4) }.
