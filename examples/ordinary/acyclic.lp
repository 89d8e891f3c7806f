% One way for each street, without a circle.
street(1,2;2,3;3,1;3,4).
{ one(X,Y) } :- street(X,Y).
#edge (X,Y) : one(X,Y).
#edge (Y,X) : street(X,Y), not one(X,Y).
#heuristic one(X,Y) : street(X,Y). [1,sign]
#show one/2.
