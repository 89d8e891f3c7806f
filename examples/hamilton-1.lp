% ground with: gringo --keep-facts
% Source document 002: Hamiltonian cycles, two vertices with an edge each to themselves. No stable model.
vertex(0..1). edge(0,0). edge(1,1).
in(X,Y) | out(X,Y) :- edge(X,Y).
reachable(X) :- in(0,X).
reachable(Y) :- reachable(X), in(X,Y).
:- in(X,Y), in(X,Z), Y < Z.
:- in(X,Z), in(Y,Z), X < Y.
:- vertex(X), not reachable(X).
