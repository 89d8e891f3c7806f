% ground with: gringo --keep-facts
% A large order, near the limits: many modules, each with a cell type, and a chain of wires that must stay whole.
module(1..60). type(a;b;c).
use(M,T) :- module(M), type(T), not skip(M,T).
skip(M,T) :- module(M), use(M,U), type(T), T != U.
wire(1). wire(M+1) :- wire(M), module(M), use(M,a).
wire(M+1) :- wire(M), module(M), use(M,b), not use(M,c).
loose(M) :- loose(N), module(M), N = M + 1.
loose(M) :- module(M), loose(M), not wire(M).
:- module(M), loose(M).
:- module(M), not wire(M).
:- use(M,a), use(M+1,a).
:- use(M,b), use(M+1,b).
:- use(M,c).
#show use/2.
