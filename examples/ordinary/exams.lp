% Exams in slots, at two levels of wishes.
exam(a;b;c;d). slot(1..3).
clash(a,b). clash(b,c). clash(c,d).
1 { at(E,S) : slot(S) } 1 :- exam(E).
:- clash(E,F), at(E,S), at(F,S).
full(S) :- slot(S), 2 { at(E,S) : exam(E) }.
:~ full(S). [3@2,S]
:~ at(E,3). [1@1,E]
:~ at(a,S), at(d,S). [2@1,S]
#show at/2.
