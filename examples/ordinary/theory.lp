% Atoms of a theory that nobody here knows: they are free.
#theory t { term { + : 1, binary, left }; &sum/1 : term, {<=}, term, any; &go/0 : term, head; &is/0 : term, body }.
{ a; b }. c :- &sum(x) { 1+y : a, not b; 2 : b } <= 7.
&go { 1 : c } :- a, not n.
d :- &is { }, not c. n :- d, m. m :- n.
&sum(z) { 3 } <= 2 :- b, 1 { a; c }.
