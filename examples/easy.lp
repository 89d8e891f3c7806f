% ground with: gringo --keep-facts
% Source document 002: the program Easy, with two stable models.
x | y.
x :- y.
y :- x.
p.
a | b :- c, not d.
c :- a.
h | e :- not a, p.
