% The most worth within a weight.
thing(a,4,10). thing(b,3,7). thing(c,2,4). thing(d,5,9). thing(e,1,2).
{ pack(T) : thing(T,_,_) }.
:- #sum { W,T : pack(T), thing(T,W,_) } > 8.
#maximize { V,T : pack(T), thing(T,_,V) }.
#show pack/1.
