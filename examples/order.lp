% The order that docs/PIPELINE.md works through: one cell type with a battery management that fits, and a housing.
cell(c1;c2;c3). bms(m1;m2). housing(h1;h2).
fits(c1,m1). fits(c2,m1). fits(c2,m2). fits(c3,m2).
holds(h1,c1). holds(h1,c3). holds(h2,c2).
sample(c2). burnt(c2).

% A cell is good unless it is banned. Samples are taken of good cells; one that burnt is banned until it is cleared.
ok(C,M) :- fits(C,M), not banned(C).
tested(C) :- ok(C,M), sample(C).
banned(C) :- tested(C), burnt(C), not cleared(C).
cleared(C) :- tested(C), not recalled(C).
recalled(C) :- tested(C), not cleared(C).

% What is not good goes back in a crate, a crate needs a lid, a lid a seal, and a seal a lid.
back(C) :- fits(C,M), not ok(C,M).
lid(C) :- back(C).
lid(C) :- seal(C).
seal(C) :- lid(C).

% One good pair is taken, in a housing that holds the cell.
take(C,M) | leave(C,M) :- ok(C,M).
:- take(C,M), take(D,N), (C,M) < (D,N).
taken :- take(C,M).
:- not taken.
in(H) | out(H) :- housing(H).
:- in(h1), in(h2).
boxed :- take(C,M), in(H), holds(H,C).
:- not boxed.
:- take(C,M), lid(C).
