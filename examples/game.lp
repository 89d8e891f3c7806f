% ground with: gringo --keep-facts
% A game on a graph: a position is won when some move leads to one that is not.
move(a,b). move(b,a). move(b,c). move(c,d). move(d,e). move(e,f). move(f,e). move(g,h). move(h,g). move(h,i).
win(X) :- move(X,Y), not win(Y).
draw(X) :- move(X,Y), not lost(X), not win(X).
lost(X) :- move(X,Y), draw(X), not draw(Y), not win(X).
