% Hamiltonian cycles of a graph that has some.
vertex(1..6).
edge(1,2;2,3;3,4;4,5;5,6;6,1;1,3;3,1;4,6;6,4;2,5;5,2).
in(X,Y) :- edge(X,Y), not out(X,Y).
out(X,Y) :- edge(X,Y), not in(X,Y).
:- in(X,Y), in(X,Z), Y < Z.
:- in(X,Z), in(Y,Z), X < Y.
reachable(Y) :- in(1,Y).
reachable(Y) :- reachable(X), in(X,Y).
:- vertex(X), not reachable(X).
#show in/2.
