% Either-or, choices and weights in one program, and much that can go.
% ground with: gringo --keep-facts
f. g :- f. t :- t, f.
a | b :- not z.
{ c; d } :- a, g, not y.
{ c } :- b. { e } :- e, not z. { h } :- z.
p :- 3 #sum { 2 : c; 2,x : d; 1 : a }.
q :- p, not r. r :- p, not q. r :- z, p.
u :- v. v :- u. { u } :- v.
w :- not u, p.
:- d, not p, not u.
#show a/0. #show c/0. #show d/0. #show q/0. #show w/0.
