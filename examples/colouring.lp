% Three colours for a map, by negation.
node(1..6). colour(red;green;blue).
edge(1,2). edge(1,3). edge(1,4). edge(2,4). edge(2,5). edge(2,6). edge(3,4). edge(3,5). edge(5,6).
col(X,C) :- node(X), colour(C), not other(X,C).
other(X,C) :- col(X,D), colour(C), D != C.
:- edge(X,Y), col(X,C), col(Y,C).
#show col/2.
