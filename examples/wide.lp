% ground with: gringo --keep-facts
% Clauses of more than 255 conditions: a pack that needs every one of 300 cells. An old cell wears beside a good one.
cell(1..300). old(300).
ok(C) :- cell(C), not bad(C).
worn(C) :- old(C), ok(C-1).
bad(C) :- worn(C), not ok(C).
pack :- ok(C) : cell(C).
half :- ok(C) : cell(C), C < 280.
odd | even :- ok(C) : cell(C), C != 7.
none :- bad(C) : cell(C), C > 20.
#show pack/0. #show half/0. #show odd/0. #show even/0. #show none/0. #show bad(300) : bad(300). #show ok(300) : ok(300).
