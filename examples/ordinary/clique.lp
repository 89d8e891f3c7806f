% Three who know each other.
know(1,2;1,3;2,3;3,4;4,5;3,5;2,5).
knows(X,Y) :- know(X,Y). knows(Y,X) :- know(X,Y).
who(X) :- knows(X,_).
{ in(X) : who(X) }.
:- in(X), in(Y), X < Y, not knows(X,Y).
big :- 3 #count { X : in(X) }.
:- not big.
#show in/1.
