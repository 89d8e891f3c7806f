% An order whose ban a forced part would break: cell c3 forces the cooling plate, the plate the deep lid, and housing h1 has
% no room for one. So c3 can't be, and with it go the rules that need it. Two packs are left.
take(c1) | take(c2) | take(c3).
use(m1) :- not use(m2).
use(m2) :- not use(m1).
plate :- take(c3).
lid(deep) :- plate.
lid(flat) :- take(C), not plate.
label(heavy) :- take(c3), use(m2).
label(plain) :- not label(heavy).
:- lid(deep).
:- take(c1), use(m2).
:- take(c2), use(m1), not spare(m1).
spare(m1) :- take(c3), use(m1).
