% ground with: gringo --keep-facts
% Planning: bring a pack from the store to the bench and close its housing, within four moves.
time(0..4). action(carry;open;fill;close).
at(store,0). closed(0).
do(A,T) :- action(A), time(T), T < 4, able(A,T), not leave(A,T).
leave(A,T) :- action(A), time(T), T < 4, not do(A,T).
:- do(A,T), do(B,T), A < B.
able(carry,T) :- at(store,T), closed(T).
able(open,T) :- at(bench,T), closed(T).
able(fill,T) :- at(bench,T), not closed(T), time(T).
able(close,T) :- full(T), not closed(T), time(T).
at(bench,T+1) :- do(carry,T).
at(P,T+1) :- at(P,T), time(T), T < 4, not do(carry,T).
closed(T+1) :- do(close,T).
closed(T+1) :- closed(T), T < 4, not do(open,T).
full(T+1) :- do(fill,T).
full(T+1) :- full(T), T < 4.
goal :- full(4), closed(4).
:- not goal.
#show do/2.
