% Three pigeons in two holes.
p(1..3). h(1..2).
{ in(P,H) : h(H) } = 1 :- p(P).
:- h(H), 2 { in(P,H) : p(P) }.
#minimize { H,P : in(P,H) }.
