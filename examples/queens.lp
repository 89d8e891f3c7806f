% Five queens.
row(1..5).
queen(X,Y) :- row(X), row(Y), not free(X,Y).
free(X,Y) :- row(X), row(Y), not queen(X,Y).
placed(X) :- queen(X,Y).
:- row(X), not placed(X).
:- queen(X,Y), queen(X,Z), Y < Z.
:- queen(X,Y), queen(Z,Y), X < Z.
:- queen(X,Y), queen(Z,W), X < Z, Z - X = |W - Y|.
#show queen/2.
