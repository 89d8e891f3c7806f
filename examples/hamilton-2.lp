% ground with: gringo --keep-facts
% Source document 002: the second graph, in which a circle is out of reach from vertex 0. No stable model.
vertex(0..3). edge(0,1). edge(2,3). edge(3,2).
in(X,Y) | out(X,Y) :- edge(X,Y).
reachable(Y) :- vertex(X), edge(X,Y), reachable(X), in(X,Y).
reachable(Y) :- edge(0,Y), in(0,Y).
:- in(X,Y), in(X,Z), Y < Z.
:- in(X,Z), in(Y,Z), X < Y.
:- vertex(X), not reachable(X).
