% ground with: gringo --keep-facts
% Every kind of step, and what one step opens for the next.
a | b.
never :- b, not b.
off :- not never.
t :- t, a.              t :- b, not off.
ok :- a, not never.
late :- b, not off.     later :- late, a.
i :- j, a.              j :- i, a.          j :- never, not a.
pair :- a.              pair :- a, not t.   pair :- a, ok.
f.                      d :- f, a.
