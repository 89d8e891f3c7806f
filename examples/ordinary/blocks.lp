% Three blocks, two moves.
block(a;b;c). spot(X) :- block(X). spot(table).
time(0..2).
on(a,b,0). on(b,table,0). on(c,table,0).
{ move(B,S,T) : block(B), spot(S), B != S } 1 :- time(T), T < 2.
moved(B,T) :- move(B,_,T).
busy(S,T) :- on(B,S,T), block(S).
:- move(B,S,T), busy(B,T).
:- move(B,S,T), busy(S,T).
on(B,S,T+1) :- move(B,S,T).
on(B,S,T+1) :- on(B,S,T), not moved(B,T), time(T+1).
:- not on(b,c,2). :- not on(a,table,2).
#show move/3.
