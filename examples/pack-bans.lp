% ground with: gringo --keep-facts
% An order with more bans than packs: no stable model.
cell(1..3). bms(1..2).
take(C) :- cell(C), not leave(C).
leave(C) :- cell(C), not take(C).
use(M) :- bms(M), not spare(M).
spare(M) :- bms(M), not use(M).
one :- take(C).
two :- use(M).
:- not one.
:- not two.
:- take(1), use(M).
:- take(C), C > 1, use(1).
:- take(2), use(2).
:- take(3), use(2), not extra.
extra :- extra, take(3).
extra :- use(1), use(2), not use(1).
