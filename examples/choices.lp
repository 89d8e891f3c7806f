% Choices and counts: the choice is reduced, the counts go past the reducer.
cell(1..5).
{ take(C) : cell(C) }.
:- not 2 { take(C) : cell(C) } 3.
heavy :- 6 #sum { C,C : take(C) }.
full :- heavy, not light.
light :- take(1), not heavy.
#show take/1. #show full/0. #show light/0.
