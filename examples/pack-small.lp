% A small pack: one cell type, one battery management, one converter, one housing, and what may not go together.
cell(c1). cell(c2). cell(c3).  bms(m1). bms(m2).  converter(k1). converter(k2).  housing(h1). housing(h2).
fits(c1,m1). fits(c2,m1). fits(c2,m2). fits(c3,m2).
holds(h1,c1). holds(h1,c2). holds(h2,c2). holds(h2,c3).
ban(m2,k1). ban(k2,h1).

take(c1) | take(c2) | take(c3).
use(m1) | use(m2).
use(k1) | use(k2).
use(h1) | use(h2).

:- take(C), use(M), bms(M), not fits(C,M).
:- take(C), use(H), housing(H), not holds(H,C).
:- use(X), use(Y), ban(X,Y).
#show take/1.
#show use/1.
