% Strategic companies: the smallest sets that still make every product, under control by others.
produced(pasta,barilla,saiwa). produced(tomatoes,frutto,barilla). produced(wine,barilla,frutto). produced(bread,saiwa,panino).
controlled(frutto,barilla,saiwa). controlled(panino,frutto,barilla).
strategic(C) | strategic(D) :- produced(P,C,D).
strategic(W) :- controlled(W,X,Y), strategic(X), strategic(Y).
