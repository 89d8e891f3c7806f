% Eight queens, one in each row and column.
n(1..8).
{ queen(X,Y) : n(Y) } = 1 :- n(X).
:- n(Y), not { queen(X,Y) : n(X) } = 1.
:- queen(X,Y), queen(Z,W), X < Z, Z - X = |W - Y|.
#show queen/2.
