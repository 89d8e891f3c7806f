% A pack at the least cost: the minimize statements go past the reducer.
price(c1,30). price(c2,25). price(m1,10). price(m2,18). price(k1,7). price(k2,5).
weight(c1,4). weight(c2,6). weight(m1,1). weight(m2,1). weight(k1,2). weight(k2,2).
use(c1) | use(c2).
use(m1) | use(m2).
use(k1) | use(k2).
:- use(c2), use(m1).
heavy :- use(c2), use(k1).
heavy :- heavy, use(m2).
:~ use(P), price(P,E). [E@2,P]
:~ use(P), weight(P,G). [G@1,P]
:~ heavy. [3@1]
