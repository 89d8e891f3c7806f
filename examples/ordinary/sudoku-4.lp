% A sudoku of four by four.
n(1..4).
{ at(X,Y,N) : n(N) } = 1 :- n(X), n(Y).
:- n(X), n(N), not { at(X,Y,N) : n(Y) } = 1.
:- n(Y), n(N), not { at(X,Y,N) : n(X) } = 1.
:- at(X,Y,N), at(Z,W,N), (X,Y) < (Z,W), (X-1)/2 = (Z-1)/2, (Y-1)/2 = (W-1)/2.
:- not at(1,1,1). :- not at(2,3,1). :- not at(3,2,2).
#show at/3.
