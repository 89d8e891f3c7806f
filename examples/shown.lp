% What is shown and what goes past the reducer: names in UTF-8, empty and negative conditions, statements of every kind.
a | b. c :- a. c :- b. d :- c, not e. e :- c, not d. f :- f, d.
#show.
#show a/0.
#show "größe µ" : a, not d.
#show kalt("kühl") : b.
#show "always".
#show nothing : f.
#show no(1..2) : not e.
#show name("a \"quoted\" text, with (brackets") : d.
#show x_3 : e.
#show 17 : b.
#show twice : a.
#show twice : e.
#project a/0.
#heuristic a. [1,true]
#heuristic b : c. [2@3,sign]
#edge (1,2) : a.
#edge (2,1) : d.
#minimize { 2@1,x : a; -1@2,y : d, c; 3 : not b }.
