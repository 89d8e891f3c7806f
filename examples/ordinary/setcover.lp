% Cheapest sets that cover all.
set(a,3). set(b,2). set(c,2). set(d,4).
of(a,(1;2;3)). of(b,(1;4)). of(c,(2;4;5)). of(d,(3;4;5)).
{ buy(S) : set(S,_) }.
covered(X) :- buy(S), of(S,X).
:- of(_,X), not covered(X).
#minimize { C,S : buy(S), set(S,C) }.
#show buy/1.
