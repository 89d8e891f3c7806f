% Source document 002, example 2: an atom that cannot be true. Two stable models.
n | a :- not m.
m :- not n, not a.
b :- a.
:- a, b.
