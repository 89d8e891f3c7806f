% Most nodes without an edge between them.
edge(1,2;2,3;3,4;4,1;4,5;5,6).
node(1..6).
{ in(X) : node(X) }.
:- in(X), in(Y), edge(X,Y).
#maximize { 1@2,X : in(X) }.
#maximize { X@1,X : in(X) }.
#show in/1.
