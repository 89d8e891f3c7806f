% ground with: gringo --keep-facts
% Source document 002: shortest paths, with fewer distances.
#const n = 4.
num(0..n).
edge(1,2,1). edge(1,3,2). edge(2,3,1). edge(3,1,1).
node(1..3). ini(1). fin(3).
s_le(X,Y,C) :- edge(X,Y,C).
s_le(X,Y,C1+C2) :- node(Y), edge(X,Z,C1), short(Z,Y,C2), num(C1+C2).
short(X,X,0) :- node(X).
short(X,Y,C) :- X != Y, s_le(X,Y,C), not s_l(X,Y,C).
s_l(X,Y,S) :- num(S), s_le(X,Y,C), C < S.
path(X,Y) | complement(X,Y) :- edge(X,Y,C).
:- ini(A), path(X,A).
:- fin(D), path(D,X).
:- path(X,Y), path(X,Z), Y < Z.
:- path(X,Y), path(Z,Y), X < Z.
r(X) :- ini(X).
r(X) :- r(Y), path(Y,X).
k(X) :- path(X,Y).
k(Y) :- path(X,Y).
:- k(D), not r(D).
:- fin(D), not r(D).
cost(X,Y,C) :- path(X,Y), edge(X,Y,C).
cost(X,Y,C1+C2) :- path(X,Z), edge(X,Z,C1), cost(Z,Y,C2), num(C1+C2).
:- ini(A), fin(D), cost(A,D,C), short(A,D,S), C > S.
#show path/2.
