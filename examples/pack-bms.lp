% ground with: gringo --keep-facts
% Battery managements for modules: each module is watched by one, and a watcher is watched itself unless it is the master.
module(1..4). manager(a;b;c).
reach(a,1..2). reach(b,2..4). reach(c,1). reach(c,4).
master(a).
talks(b,a). talks(c,b). talks(b,c).

watch(M,X) :- module(X), reach(M,X), not other(M,X).
other(M,X) :- reach(M,X), watch(N,X), N != M.
seen(X) :- watch(M,X).
:- module(X), not seen(X).

on(M) :- watch(M,X).
linked(M) :- on(M), master(M).
linked(M) :- on(M), talks(M,N), linked(N).
:- on(M), not linked(M).
fault(M) :- fault(N), talks(M,N).
fault(M) :- fault(M), on(M).
warn(M) :- fault(M), not linked(M).
#show watch/2.
#show warn/1.
