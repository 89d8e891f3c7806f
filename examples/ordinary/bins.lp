% Fewest bins.
size(a,3). size(b,4). size(c,2). size(d,3). bin(1..3).
{ in(I,B) : bin(B) } = 1 :- size(I,_).
:- bin(B), #sum { S,I : in(I,B), size(I,S) } > 6.
used(B) :- in(_,B).
:- used(B), bin(B-1), not used(B-1).
#minimize { 1,B : used(B) }.
#show in/2.
