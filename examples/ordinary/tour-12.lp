% A round tour of twelve places, along streets.
place(0..11).
street(X,Y) :- place(X), Y = (X+1) \ 12.
street(X,Y) :- place(X), Y = (X+5) \ 12.
street(Y,X) :- street(X,Y), X < 4.
{ go(X,Y) : street(X,Y) } = 1 :- place(X).
:- place(Y), not { go(X,Y) : street(X,Y) } = 1.
seen(0).
seen(Y) :- seen(X), go(X,Y).
:- place(X), not seen(X).
#show go/2.
