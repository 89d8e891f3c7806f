% Three colours, neighbours differ.
node(1..5). edge(1,2;2,3;3,4;4,5;5,1;1,3).
colour(r;g;b).
1 { has(N,C) : colour(C) } 1 :- node(N).
:- edge(N,M), has(N,C), has(M,C).
#show has/2.
