# forms.sh - what is written, byte for byte, worked out by hand. data/ holds what gringo 5.4.1 makes of two examples, so that
# what is compared is this program's alone: kinds.aspif and order.aspif with --keep-facts, order.ground with --text too, and
# order-plain.ground with --text only.

# writes WHAT OPTIONS: the input in $tmp/in gives exactly $tmp/want, and the same under the sanitizers.
writes() {
    for program in build/gambrolt build/sanitized/gambrolt; do
        # shellcheck disable=SC2086
        $program $2 <"$tmp/in" >"$tmp/out" 2>"$tmp/err"
        expect "$1: status 0" [ $? -eq 0 ]
        expect "$1" same "$tmp/want" "$tmp/out"
        expect "$1: nothing on standard error" [ ! -s "$tmp/err" ]
    done
}

# document 01's example, input and output whole
cp examples/document-01.txt "$tmp/in"
cat >"$tmp/want" <<'END'
atoms=4
clauses=2
head=0
pos=
neg=
head=1
pos=
neg=
steps=4
step=1,2,0,3
step=3,1,0,0
step=6,3,0,3
step=4,1,0,2
END
writes "document 01's example with --steps" "--text --steps"
sed -i '/^step/d' "$tmp/want"
writes "document 01's example" --text
cp "$tmp/in" "$tmp/want"
writes "the text as it is" "--text --no-reduce"
: >"$tmp/want"
writes "a dry run" "--text --dry-run"

# aspif: repeats removed, literals sorted, statements in their places and as they came, atoms numbered as they came
cat >"$tmp/in" <<'END'
asp 1 0 0
10 a comment
4 1 p 1 7
1 0 2 3 3 0 0
1 0 1 7 0 4 9 -5 3 -5
4 10 "größe" 2 7 -5
1 0 1 7 0 1 7
2 1 2 7 3  -9 -2
1 0 2 9 5 0 0
4 0  0
3 2 7 9
6 1 -12
7 1 7 2 3 1 9
8 -1 2 1 9
4 6 no one 1 77
1 0 0 0 2 12 9
0
END
cat >"$tmp/want" <<'END'
asp 1 0 0
10 a comment
4 1 p 1 7
1 0 1 3 0 0
1 0 1 7 0 2 9 -5
4 10 "größe" 2 7 -5
2 1 2 7 3  -9 -2
1 0 2 5 9 0 0
4 0  0
3 2 7 9
6 1 -12
7 1 7 2 3 1 9
8 -1 2 1 9
4 6 no one 1 77
0
END
sed -i 's/^4 10 "größe"/4 9 "größe"/' "$tmp/in" "$tmp/want"
writes "aspif" ""
cp "$tmp/in" "$tmp/given"

# the same without a reduction: only sorted, repeats removed
sed 's/^1 0 2 3 3 0 0/1 0 1 3 0 0/; s/^1 0 1 7 0 4 9 -5 3 -5/1 0 1 7 0 3 3 9 -5/; s/^1 0 2 9 5 0 0/1 0 2 5 9 0 0/; s/^1 0 0 0 2 12 9/1 0 0 0 2 9 12/' \
    "$tmp/given" >"$tmp/want"
writes "aspif without a reduction" --no-reduce

# blanks, no line feed after the end, blank lines after it
printf 'asp 1 0 0 \n1  0\t1 1 0 0  \n 0 ' >"$tmp/in"
printf 'asp 1 0 0\n1 0 1 1 0 0\n0\n' >"$tmp/want"
writes "blanks" ""
printf 'asp 1 0 0\n0\n\n' >"$tmp/in"
printf 'asp 1 0 0\n0\n' >"$tmp/want"
writes "an empty program" ""
printf '#show.\n' >"$tmp/want"
writes "an empty program as rules" --to-lp
printf 'atoms=0\nclauses=0\n' >"$tmp/want"
writes "an empty program as text" --to-text
printf 'asp 1 0 0\n 10 a comment alone\n0\n' >"$tmp/in"
printf '#show.\n%% a comment alone\n' >"$tmp/want"
writes "a comment alone as rules" --to-lp

# readable rules
cp "$tmp/given" "$tmp/in"
cat >"$tmp/want" <<'END'
x_3.
p :- x_9, not x_5.
x_5 | x_9.
#show.
% a comment
#show p : p.
#show "größe" : p, not x_5.
:~ p. [3@1,0]
:~ not x_9. [-2@1,1]
#project p.
#project x_9.
:- x_12.
#heuristic p : x_9. [2@3,sign]
#edge (-1,2) : x_9.
#show no one : x_77.
END
writes "readable rules" --to-lp

# text, with atoms 3 5 7 9 12 as 0 to 4
cat >"$tmp/want" <<'END'
atoms=5
clauses=5
head=0
pos=
neg=
head=2
pos=0,3
neg=1
head=2
pos=2
neg=
head=1,3
pos=
neg=
head=
pos=3,4
neg=
END
writes "aspif to text" --to-text
cp "$tmp/want" "$tmp/in"
cat >"$tmp/want" <<'END'
asp 1 0 0
1 0 1 1 0 0
1 0 1 3 0 3 1 4 -2
1 0 1 3 0 1 3
1 0 2 2 4 0 0
1 0 0 0 2 4 5
4 4 a(0) 1 1
4 4 a(1) 1 2
4 4 a(2) 1 3
4 4 a(3) 1 4
4 4 a(4) 1 5
0
END
writes "text to aspif" --from-text
cat >"$tmp/want" <<'END'
a(0).
a(2) :- a(0), a(3), not a(1).
a(2) :- a(2).
a(1) | a(3).
:- a(3), a(4).
#show.
#show a(0) : a(0).
#show a(1) : a(1).
#show a(2) : a(2).
#show a(3) : a(3).
#show a(4) : a(4).
END
writes "text to readable rules" "--from-text --to-lp"

# the same text with its lists in any order and atoms repeated gives the same; text is written canonical
cp "$tmp/in" "$tmp/canonical"
cat >"$tmp/in" <<'END'
atoms=5
clauses=5
head=0,0
pos=
neg=
head=2
pos=3,0,3
neg=1,1
head=2,2,2
pos=2
neg=
head=3,1
pos=
neg=
head=
pos=4,3,4
neg=
END
writes "a text in any order to readable rules" "--from-text --to-lp"
cp "$tmp/canonical" "$tmp/want"
writes "a text in any order as it is" "--text --no-reduce"
build/gambrolt --text --steps "$tmp/canonical" >"$tmp/want"
expect "its text has steps" grep -q "^steps=[1-9]" "$tmp/want"
writes "a text in any order, reduced" "--text --steps"
build/gambrolt --from-text "$tmp/canonical" >"$tmp/want"
writes "a text in any order to aspif" --from-text

# names: shown twice, for a condition, in no atom's form, and taken from the nameless
cat >"$tmp/in" <<'END'
asp 1 0 0
4 1 a 1 1
4 1 b 1 2
4 1 b 1 3
4 1 c 2 3 4
4 2 17 1 4
4 3 x_5 1 6
4 3 not 1 7
4 4 f(") 1 8
4 6 f(")") 1 9
4 4 also 1 1
4 6 -g(1)b 1 10
4 5 -g(1) 1 11
4 1 h 1 -5
1 0 6 1 2 3 4 5 6 0 5 7 8 9 10 11
1 0 5 7 8 9 10 11 0 0
0
END
printf 'a | xx_2 | xx_3 | xx_4 | xx_5 | x_5 :- xx_7, xx_8, f(")"), xx_10, -g(1).\nxx_7 | xx_8 | f(")") | xx_10 | -g(1).\n' >"$tmp/want"
build/gambrolt --to-lp "$tmp/in" | sed '/^#/d' >"$tmp/out"
expect "names" same "$tmp/want" "$tmp/out"

# sentences: one for every kind, as the steps before left the clauses
cp shell/tests/data/kinds.aspif "$tmp/in"
cat >"$tmp/want" <<'END'
clause 8, `t :- a, t.`: deleted, since it derives `t` only where that already holds
clause 3, `never :- b, not b.`: deleted, since it needs both `b` and `not b`
clause 2, `d :- x_1, a.`: dropped `x_1`, which clause 0 gives as a fact
clause 4, `ok :- a, not never.`: dropped `not never`, which no clause can derive
clause 6, `off :- not never.`: dropped `not never`, which no clause can derive
clause 7, `t :- b, not off.`: deleted, since it needs `not off`, but clause 6, `off.`, is a fact
clause 9, `pair :- a, not t.`: dropped `not t`, which no clause can derive
clause 14, `late :- b, not off.`: deleted, since it needs `not off`, but clause 6, `off.`, is a fact
clause 11, `j :- never, not a.`: deleted, since it needs `never`, which no clause can derive
clause 15, `later :- a, late.`: deleted, since it needs `late`, which no clause can derive
clause 12, `i :- a, j.`: deleted, since it needs `j`, which is derived only in a circle: `j` needs `i`, `i` needs `j`
clause 13, `j :- a, i.`: deleted, since it needs `i`, which no clause can derive
clause 5, `pair :- a, ok.`: deleted, since clause 9, `pair :- a.`, already covers it
clause 10, `pair :- a.`: deleted, since clause 9, `pair :- a.`, says the same
END
build/gambrolt --explain --dry-run <"$tmp/in" 2>"$tmp/out"
expect "sentences" same "$tmp/want" "$tmp/out"
build/gambrolt "--explain=$tmp/sentences" <"$tmp/in" >"$tmp/out" 2>"$tmp/err"
expect "sentences in a file" same "$tmp/want" "$tmp/sentences"
expect "sentences in a file: nothing on standard error" [ ! -s "$tmp/err" ]
build/gambrolt --text --explain --dry-run examples/islands.txt 2>&1 | sed -n '1p;3p;$p' >"$tmp/out"
cat >"$tmp/want" <<'END'
clause 4, `a(8) :- a(2), a(7).`: deleted, since it needs `a(7)`, which is derived only in a circle: `a(7)` needs `a(8)`, `a(8)` needs `a(7)`
clause 0, `a(0) | a(1).`: deleted, since clause 8, `:-.`, rules out every stable model anyway
clause 8, `:-.`: deleted, since clause 6, `:-.`, rules out every stable model anyway
END
expect "sentences about an order without models" same "$tmp/want" "$tmp/out"
printf 'asp 1 0 0\n1 0 2 1 2 0 0\n1 0 1 3 0 2 -1 -2\n4 1 a 1 1\n4 1 b 1 2\n4 1 c 1 3\n0\n' >"$tmp/in"
printf 'clause 1, `c :- not a, not b.`: deleted, since it needs `not a` and `not b`, but clause 0, `a | b.`, is a fact\n' >"$tmp/want"
build/gambrolt --explain --dry-run <"$tmp/in" 2>"$tmp/out"
expect "a sentence about an either-or fact" same "$tmp/want" "$tmp/out"

# equal rules: the first of them is kept, in its place; d :- a, not f. becomes equal to it only once `not f` is dropped
cat >"$tmp/in" <<'END'
asp 1 0 0
1 0 1 4 0 1 1
1 0 1 1 0 1 -2
1 0 1 4 0 2 1 -6
1 0 1 2 0 1 -1
1 0 1 1 0 1 -2
1 0 1 4 0 1 1
1 0 0 0 2 -1 4
1 0 0 0 2 4 -1
4 1 a 1 1
4 1 b 1 2
4 1 d 1 4
4 1 f 1 6
0
END
cat >"$tmp/want" <<'END'
asp 1 0 0
1 0 1 4 0 1 1
1 0 1 1 0 1 -2
1 0 1 2 0 1 -1
1 0 0 0 2 4 -1
4 1 a 1 1
4 1 b 1 2
4 1 d 1 4
4 1 f 1 6
0
END
writes "equal rules" ""
cat >"$tmp/want" <<'END'
clause 2, `d :- a, not f.`: dropped `not f`, which no clause can derive
clause 2, `d :- a.`: deleted, since clause 0, `d :- a.`, says the same
clause 4, `a :- not b.`: deleted, since clause 1, `a :- not b.`, says the same
clause 5, `d :- a.`: deleted, since clause 0, `d :- a.`, says the same
clause 7, `:- d, not a.`: deleted, since clause 6, `:- d, not a.`, says the same
END
build/gambrolt --explain --dry-run <"$tmp/in" 2>"$tmp/out"
expect "sentences about equal rules" same "$tmp/want" "$tmp/out"

# names that aspif lacks: facts, and atoms that no rule derives
cp shell/tests/data/order.aspif "$tmp/in"
cp shell/tests/data/order.ground "$tmp/text"
cat >"$tmp/want" <<'END'
clause 19, `ok(c3,m2) :- fits(c3,m2), not banned(c3).`: dropped `fits(c3,m2)`, which clause 3 gives as a fact
clause 19, `ok(c3,m2) :- not banned(c3).`: dropped `not banned(c3)`, which no clause can derive
END
for program in build/gambrolt build/sanitized/gambrolt; do
    $program --explain "--names=$tmp/text" <"$tmp/in" 2>&1 >"$tmp/out" | grep 'clause 19.*dropped' >"$tmp/sentences"
    expect "names from ground rules" same "$tmp/want" "$tmp/sentences"
done
build/gambrolt <"$tmp/in" >"$tmp/want"
expect "names change no program" same "$tmp/want" "$tmp/out"
build/gambrolt --to-lp "--names=$tmp/text" <"$tmp/in" >"$tmp/out"
expect "rules without a nameless atom" sh -c '! grep -q "x_[0-9]" "$0"' "$tmp/out"
sed 's/banned(c3)/banned(c1)/' "$tmp/text" >"$tmp/other"
build/gambrolt --to-lp "--names=$tmp/other" <"$tmp/in" >"$tmp/out" 2>"$tmp/err"
expect "one name for two atoms: a note" grep -q "names: its rules do not fit" "$tmp/err"
build/gambrolt --to-lp <"$tmp/in" >"$tmp/want"
expect "one name for two atoms: no names" same "$tmp/want" "$tmp/out"
build/gambrolt --to-lp --names=shell/tests/data/order-plain.ground <"$tmp/in" >"$tmp/out" 2>"$tmp/err"
expect "rules grounded otherwise: no names" same "$tmp/want" "$tmp/out"
sed 's/cell(c2)/cell#(c2)/' "$tmp/text" | tr '#' '\000' >"$tmp/other"
build/gambrolt --to-lp "--names=$tmp/other" <"$tmp/in" >"$tmp/out" 2>"$tmp/err"
expect "a zero byte among the rules: no names" same "$tmp/want" "$tmp/out"

# statistics
build/gambrolt --stats --dry-run shell/tests/data/kinds.aspif 2>&1 | sed 's/[0-9.]* s$/T s/' >"$tmp/out"
cat >"$tmp/want" <<'END'
                   before    after
clauses                16        6
body literals          26        3
atoms                  13        7
positive cycle        yes       no
steps                  14
  1 tautology           1
  2 contradiction       1
  3 success             1
  4 no_head             3
  5 blocked             2
  6 failure             3
  7 loop                1
  8 subsumed            2
  9 excluded            0
reading             T s
reducing            T s
checking            T s
END
expect "statistics" sh -c 'tr -s " " <"$0" | sed "s/ *T s/ T s/" >"$0.1"; tr -s " " <"$1" >"$1.1"; cmp -s "$0.1" "$1.1" || { diff "$0" "$1" >&2; false; }' "$tmp/out" "$tmp/want"
printf 'asp 1 0 0\n1 0 1 1 0 1 -2\n1 0 1 2 0 1 -1\n0\n' | build/gambrolt --stats --dry-run 2>&1 | grep '^positive cycle' | tr -s ' ' >"$tmp/out"
printf 'positive cycle no no\n' >"$tmp/want"
expect "a circle through negation is no positive cycle" same "$tmp/want" "$tmp/out"
build/gambrolt "--stats=json:$tmp/stats" --explain --dry-run shell/tests/data/kinds.aspif >"$tmp/out" 2>"$tmp/err"
expect "statistics in a file: status 0" [ $? -eq 0 ]
expect "statistics in a file: sentences alone on standard error" sh -c '[ "$(grep -c "^clause" "$0")" -eq 14 ] && [ "$(wc -l <"$0")" -eq 14 ]' "$tmp/err"
sed 's/: [0-9]*\.[0-9]*/: T/g' "$tmp/stats" >"$tmp/out"
cat >"$tmp/want" <<'END'
{"reduced": true,
 "clauses": {"before": 16, "after": 6},
 "literals": {"before": 26, "after": 3},
 "atoms": {"before": 13, "after": 7},
 "carried": 0,
 "positive_cycle": {"before": true, "after": false},
 "steps": {"all": 14, "tautology": 1, "contradiction": 1, "success": 1, "no_head": 3, "blocked": 2, "failure": 3, "loop": 1, "subsumed": 2, "excluded": 0},
 "seconds": {"reading": T, "reducing": T, "checking": T},
 "list": [
 {"step": [1, 8, 0, 8], "kind": "tautology", "rule": 8, "line": 10, "atom": 9, "name": "t"},
 {"step": [2, 3, 0, 1], "kind": "contradiction", "rule": 3, "line": 5, "atom": 2, "name": "b"},
 {"step": [3, 2, 0, 0], "kind": "success", "rule": 2, "line": 4, "partner_rule": 0, "partner_line": 2, "atom": 1, "name": "x_1"},
END
head -12 "$tmp/out" >"$tmp/first"
expect "statistics in JSON" same "$tmp/want" "$tmp/first"
expect "statistics in JSON: the last step" [ "$(tail -1 "$tmp/out")" = ' {"step": [8, 10, 9, 0], "kind": "subsumed", "rule": 10, "line": 12, "partner_rule": 9, "partner_line": 11}]}' ]
build/gambrolt --stats=json --dry-run shell/tests/data/kinds.aspif 2>&1 | sed 's/: [0-9]*\.[0-9]*/: T/g' >"$tmp/err"
expect "statistics in JSON on standard error" same "$tmp/out" "$tmp/err"
