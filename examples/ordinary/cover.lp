% Fewest nodes that touch every edge.
edge(1,2;1,3;2,4;3,4;4,5;5,6;6,3).
node(X) :- edge(X,Y). node(Y) :- edge(X,Y).
{ in(X) } :- node(X).
:- edge(X,Y), not in(X), not in(Y).
#minimize { 1,X : in(X) }.
#show in/1.
