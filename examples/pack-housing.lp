% Housings: modules into slots, two to a housing at most, hot ones apart.
module(1..4). slot(1..2,1..2). hot(1). hot(3).
place(M,H,S) | elsewhere(M,H,S) :- module(M), slot(H,S).
placed(M) :- place(M,H,S).
:- module(M), not placed(M).
:- place(M,H,S), place(M,I,T), (H,S) < (I,T).
:- place(M,H,S), place(N,H,S), M < N.
:- place(M,H,_), place(N,H,_), hot(M), hot(N), M < N.
lid(H) :- place(_,H,_).
#show place/3.
#show lid/1.
