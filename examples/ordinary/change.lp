% Ways to pay thirteen with coins.
coin(1,3). coin(2,2). coin(5,2). coin(10,1).
number(V,0..M) :- coin(V,M).
1 { use(V,N) : number(V,N) } 1 :- coin(V,_).
:- not 13 #sum { V*N,V : use(V,N) } 13.
#show use/2.
