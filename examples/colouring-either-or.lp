% The same map with either-or rules.
node(1..6).
edge(1,2). edge(1,3). edge(1,4). edge(2,4). edge(2,5). edge(2,6). edge(3,4). edge(3,5). edge(5,6).
col(X,red) | col(X,green) | col(X,blue) :- node(X).
:- edge(X,Y), col(X,C), col(Y,C).
