% Two teams of three, with a wish and a quarrel.
who(1..6). team(x;y).
1 { in(P,T) : team(T) } 1 :- who(P).
:- team(T), not 3 { in(P,T) : who(P) } 3.
:- in(1,T), in(2,T).
happy :- in(3,T), in(4,T), team(T).
sad :- not happy, not glad. glad :- not sad, happy.
:- not in(1,x).
#show in/2. #show happy/0. #show sad/0.
