% ground with: gringo --keep-facts
% A pack from stock: what is in stock, what is blocked, and what each choice brings with it.
part(c,1..5). part(m,1..3). part(k,1..3). part(h,1..2).
stock(c,1..3). stock(m,1..2). stock(k,2..3). stock(h,1..2).
recalled(c,2). recalled(k,3).
blocked(T,P) :- recalled(T,P).
blocked(T,P) :- part(T,P), not stock(T,P).

in(T,P) :- part(T,P), not out(T,P), not blocked(T,P).
out(T,P) :- part(T,P), not in(T,P).
some(T) :- in(T,P).
:- part(T,_), not some(T).
:- in(T,P), in(T,Q), P < Q.
cable(P) :- in(k,P), in(h,1).
plug(P) :- in(k,P), in(h,2), not cable(P).
