% Numbers that sum to twenty, without a bound below.
number(3;5;7;8;9;11;12).
{ take(N) : number(N) }.
:- not #sum { N : take(N) } = 20.
odd :- 1 #sum { 1,N : take(N), N \ 2 = 1 }.
none :- odd, lost. lost :- none.
#show take/1. #show odd/0.
