% Converters: a chain from the cells' voltage to the load's, each link at most once, no link against a ban.
volt(48;24;12;5).
link(48,24,k1). link(24,12,k2). link(48,12,k3). link(12,5,k4). link(24,5,k5). link(5,12,k6).
ban(k2,k4). ban(k3,k5).

use(K) :- link(A,B,K), live(A), not idle(K).
idle(K) :- link(A,B,K), not use(K).
live(48).
live(B) :- link(A,B,K), live(A), use(K).
:- not live(5).
:- use(K), use(L), ban(K,L).
:- link(A,B,K), link(C,B,L), K < L, use(K), use(L).
#show use/1.
