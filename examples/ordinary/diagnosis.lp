% Which lamp is broken, given what is seen.
lamp(1..4). wired(1,2;2,3;3,4).
{ broken(L) : lamp(L) } 2.
power(1).
power(M) :- wired(L,M), power(L), not broken(L).
shines(L) :- power(L), not broken(L), not covered(L).
covered(L) :- lamp(L), box(L).
box(L) :- covered(L), not shines(L).
:- shines(3). :- not shines(1).
#minimize { 1,L : broken(L) }.
#show broken/1. #show shines/1.
