% A small order of which docs/PIPELINE.md lists all packs: one cell type, one battery management, one housing.
cell(c1;c2;c3). bms(m1;m2). housing(h1;h2).
fits(c1,m1). fits(c2,m1). fits(c2,m2). fits(c3,m2).
holds(h1,c1). holds(h1,c2). holds(h2,c2). holds(h2,c3).
ban(m2,h1).
sample(c3). passed(c3).

% A cell is good unless it is banned. Samples are taken of good cells; one that did not pass is banned.
ok(C) :- cell(C), not banned(C).
tested(C) :- ok(C), sample(C).
banned(C) :- tested(C), not passed(C).

% What is not good goes back in a crate, a crate needs a lid, a lid a seal, and a seal a lid.
back(C) :- cell(C), not ok(C).
lid(C) :- back(C).
lid(C) :- seal(C).
seal(C) :- lid(C).

% One good cell with a battery management that fits, in a housing that holds it; some parts may not go together.
{ take(C) } :- ok(C).
:- take(C), take(D), C < D.
:- take(C), lid(C).
taken :- take(C).
:- not taken.
use(m1) | use(m2).
in(h1) | in(h2).
:- take(C), use(M), not fits(C,M).
:- take(C), in(H), not holds(H,C).
:- use(M), in(H), ban(M,H).
#show take/1.
#show use/1.
#show in/1.
