% Latin squares of three.
n(1..3).
1 { at(X,Y,N) : n(N) } 1 :- n(X), n(Y).
:- at(X,Y,N), at(X,Z,N), Y < Z.
:- at(X,Y,N), at(Z,Y,N), X < Z.
#show at/3.
