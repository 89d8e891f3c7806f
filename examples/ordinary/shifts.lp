% Shifts: two a day, nobody more than three, wishes at two levels.
day(1..4). who(ann;bob;cem).
2 { on(P,D) : who(P) } 2 :- day(D).
:- who(P), 4 { on(P,D) : day(D) }.
tired(P) :- on(P,D), on(P,D+1), not rested(P).
rested(P) :- who(P), not on(P,2), not holiday.
:~ tired(P). [2@2,P]
:~ on(ann,4). [1@1]
:~ not on(bob,1). [1@1,bob]
#show on/2.
