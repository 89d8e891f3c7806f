% At most two nodes that everyone is next to; only the nodes are told apart.
edge(1,2;2,3;3,4;4,5;5,6;6,1;1,4).
near(X,Y) :- edge(X,Y). near(Y,X) :- edge(X,Y). near(X,X) :- near(X,_).
{ in(X) : near(X,X) } 2.
watched(X) :- near(X,Y), in(Y).
:- near(X,X), not watched(X).
strong(X) :- near(X,X), 2 { in(Y) : near(X,Y) }.
#show in/1. #show strong/1.
#project in/1.
