% Choices, of which only some are told apart.
{ a; b; c }. d :- a, not e. e :- b, not d. f :- c, not g. g :- f, lost. lost :- g, not f.
#project a/0. #project lost/0.
#show a/0. #show d/0. #show e/0.
