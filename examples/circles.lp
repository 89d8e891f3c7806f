% ground with: gringo --keep-facts
% Circles through negation: the grounder cannot tell what the reducer can.
g(1..12). n(3..5).
s(P) :- g(P), not w(P).
w(P) :- n(P), not s(P).
n(P+9) :- s(P), P < 20.
v(P) :- w(P), n(P+9).
u(P) :- w(P), not w(P+1), g(P).
w(P) :- u(P), not g(P).
