# excluded.sh - atoms that can't be, steps of kind 9: lists, sentences and what is written, by hand; orders with rules beside
# the table, where the kind is left out; and random orders beside the solver. `writes` is that of forms.sh, `says` and `refuses`
# those of certificate.sh, `fits` and `pairs` those of models.sh.

# <- 0. 0 <- 1. 1 <- ~2. 2 <- ~1.: a rule that loses its head is the next constraint
printf 'atoms=3\nclauses=4\nhead=\npos=0\nneg=\nhead=0\npos=1\nneg=\nhead=1\npos=\nneg=2\nhead=2\npos=\nneg=1\n' >"$tmp/in"
printf 'atoms=3\nclauses=1\nhead=2\npos=\nneg=\nsteps=3\nstep=9,0,0,0\nstep=9,1,0,1\nstep=5,2,3,0\n' >"$tmp/want"
writes "a constraint handed on" "--text --steps"
build/gambrolt --text "--steps=$tmp/list" "--explain=$tmp/told" --dry-run <"$tmp/in"
says "a constraint handed on: the list" 0 "yes: the list's 3 steps" --text "--check=$tmp/list"
cat >"$tmp/want" <<'END'
clause 0, `:- a(0).`: `a(0)` can't be; deleted clause 0; dropped it from the head of clause 1
clause 1, `:- a(1).`: `a(1)` can't be; deleted clause 1; dropped it from the head of clause 2; dropped its negation from clause 3
clause 2, `:- not a(2).`: deleted, since it needs `not a(2)`, but clause 3, `a(2).`, is a fact
END
expect "a constraint handed on: the sentences" same "$tmp/want" "$tmp/told"
build/gambrolt --text "--steps=$tmp/list.json" --dry-run <"$tmp/in"
expect "a constraint handed on: the object" grep -qF '{"step": [9, 1, 0, 1], "kind": "excluded", "rule": 1, "line": 6, "atom": 1, "name": "a(1)"}' "$tmp/list.json"
says "a constraint handed on: the list in JSON" 0 "yes: the list's 3 steps" --text "--check=$tmp/list.json"
refuses "an atom that can be" 'steps=1\nstep=9,0,0,2\n' "list, line 2: step 0, 9,0,0,2: the condition of a step does not hold (refused=16,0)"
refuses "a target with a head" 'steps=1\nstep=9,1,0,1\n' "refused=16,0"
refuses "a partner of kind 9" 'steps=1\nstep=9,0,1,0\n' "refused=14,0"
refuses "another kind than 1 to 9" 'steps=1\nstep=10,0,0,0\n' "the kind of a step is not 1 to 9 (refused=12,0)"

# an atom that leads to a constraint, and more clauses than are named; heads are told as they are left
awk 'BEGIN { print "atoms=60\nclauses=53\nhead=1\npos=0\nneg=\nhead=\npos=1\nneg=\nhead=0,2,3\npos=\nneg="; for (i = 4; i < 54; i++) print "head=" i "\npos=\nneg=0," i + 1 }' >"$tmp/in"
build/gambrolt --text "--explain=$tmp/told" --dry-run <"$tmp/in"
expect "an atom that leads to a constraint" grep -qF "clause 1, \`:- a(1).\`: \`a(0)\` can't be, since \`a(1)\` follows from it; deleted clause 0; dropped it from the head of clause 2; dropped its negation from clauses 3, 4, 5, 6, 7, 8, 9, 10, 11, 12, 13, 14, 15, 16, 17, 18, 19, 20, 21, 22 and 30 more" "$tmp/told"

# a disjunction as left: it blocks by the heads that it has still
printf 'atoms=4\nclauses=3\nhead=0,1,2\npos=\nneg=\nhead=\npos=0\nneg=\nhead=3\npos=\nneg=1,2\n' >"$tmp/in"
cat >"$tmp/want" <<'END'
clause 1, `:- a(0).`: `a(0)` can't be; deleted clause 1; dropped it from the head of clause 0
clause 2, `a(3) :- not a(1), not a(2).`: deleted, since it needs `not a(1)` and `not a(2)`, but clause 0, `a(1) | a(2).`, is a fact
END
build/gambrolt --text "--explain=$tmp/told" --dry-run <"$tmp/in"
expect "heads as they are left" same "$tmp/want" "$tmp/told"

# a clause that loses all that it has
printf 'atoms=3\nclauses=3\nhead=\npos=0\nneg=\nhead=0\npos=\nneg=0\nhead=1,2\npos=\nneg=\n' >"$tmp/in"
cat >"$tmp/want" <<'END'
clause 0, `:- a(0).`: `a(0)` can't be; deleted clause 0; dropped it from the head of clause 1; dropped its negation from clause 1
clause 2, `a(1) | a(2).`: deleted, since clause 1, `:-.`, rules out every stable model anyway
END
build/gambrolt --text "--explain=$tmp/told" --dry-run <"$tmp/in"
expect "a clause that loses all that it has" same "$tmp/want" "$tmp/told"

# a circle, told by the heads that are left: a(2) is no longer derived from the disjunction
printf 'atoms=5\nclauses=6\nhead=1\npos=0\nneg=\nhead=\npos=1\nneg=\nhead=0,4\npos=\nneg=\nhead=2\npos=0\nneg=\nhead=2\npos=3\nneg=\nhead=3\npos=2\nneg=\n' >"$tmp/in"
build/gambrolt --text "--explain=$tmp/told" --dry-run <"$tmp/in"
expect "a circle behind an atom that can't be" grep -qF "clause 4, \`a(2) :- a(3).\`: deleted, since it needs \`a(3)\`, which is derived only in a circle: \`a(3)\` needs \`a(2)\`, \`a(2)\` needs \`a(3)\`" "$tmp/told"

# choices: one that loses an atom is written without it, and one that loses its only atom not at all
cat >"$tmp/in" <<'END'
asp 1 0 0
1 1 3 1 2 3 0 0
1 0 0 0 1 2
1 0 1 4 0 1 3
1 0 0 0 2 4 3
1 1 1 5 0 1 3
1 1 1 6 0 1 -2
1 0 1 7 0 1 -6
1 1 1 2 0 1 7
4 1 a 1 1
4 1 b 1 2
4 1 c 1 3
4 1 d 1 4
4 1 e 1 5
4 1 f 1 6
4 1 g 1 7
0
END
cat >"$tmp/want" <<'END'
asp 1 0 0
1 1 2 1 6 0 0
1 0 1 7 0 1 -6
4 1 a 1 1
4 1 b 1 2
4 1 c 1 3
4 1 d 1 4
4 1 e 1 5
4 1 f 1 6
4 1 g 1 7
0
END
writes "choices of atoms that can't be" ""
before=$fitted
fits "choices of atoms that can't be"
expect "choices of atoms that can't be are listed" [ "$fitted" -gt "$before" ]
expect "choices of atoms that can't be: four models" [ "$(tail -n 1 "$tmp/out")" = "Models       : 4" ]
cat >"$tmp/want" <<'END'
clause 1, `:- b.`: `b` can't be; deleted clause 1; dropped it from the head of clauses 0, 7; dropped its negation from clause 5
clause 3, `:- c, d.`: `c` can't be, since `d` follows from it; deleted clauses 2, 3, 4; dropped it from the head of clause 0
END
build/gambrolt --explain --dry-run <"$tmp/in" 2>"$tmp/out"
expect "choices of atoms that can't be: the sentences" same "$tmp/want" "$tmp/out"
build/gambrolt --stats --dry-run <"$tmp/in" 2>&1 | sed -n '2,4p;6p;15p' | tr -s ' ' >"$tmp/out"
printf 'clauses 10 3\nbody literals 8 1\natoms 7 3\nsteps 2\n 9 excluded 2\n' >"$tmp/want"
expect "choices of atoms that can't be: figures" same "$tmp/want" "$tmp/out"
build/gambrolt --to-lp <"$tmp/in" | sed '/#show/,$d' >"$tmp/out"
printf '{a; f}.\ng :- not f.\n' >"$tmp/want"
expect "choices of atoms that can't be: as rules" same "$tmp/want" "$tmp/out"
# the first of two choices with one body loses its atom: the other is written at its own place
printf 'asp 1 0 0\n1 1 1 1 0 1 3\n1 0 0 0 1 1\n1 1 1 2 0 1 3\n1 1 1 3 0 0\n0\n' >"$tmp/in"
printf 'asp 1 0 0\n1 1 1 2 0 1 3\n1 1 1 3 0 0\n0\n' >"$tmp/want"
writes "the first of two choices loses its atom" ""
# a step at a choice that has lost its atom has no sentence: {x_1} :- x_3. has, and goes when x_3 has no rule any more
printf 'asp 1 0 0\n1 0 0 0 1 1\n1 1 1 1 0 1 3\n1 1 1 3 0 1 6\n1 0 1 6 0 1 4\n1 1 1 4 0 0\n1 0 1 5 0 1 4\n1 0 0 0 1 5\n0\n' >"$tmp/in"
printf 'asp 1 0 0\n0\n' >"$tmp/want"
writes "a choice without its atom goes" ""
cat >"$tmp/want" <<'END'
clause 0, `:- x_1.`: `x_1` can't be; deleted clause 0; dropped it from the head of clause 1
clause 6, `:- x_5.`: `x_4` can't be, since `x_5` follows from it; deleted clauses 3, 5; dropped it from the head of clause 4
clause 2, `{x_3} :- x_6.`: deleted, since it needs `x_6`, which no clause can derive
clause 6, `:- x_5.`: deleted, since it needs `x_5`, which no clause can derive
END
build/gambrolt --explain --dry-run <"$tmp/in" 2>"$tmp/out"
expect "a choice without its atom goes: the sentences" same "$tmp/want" "$tmp/out"
# a choice that has lost its atom takes no room: 16 atoms are listed beside it
pairs 16 | sed '1a1 1 1 50 0 1 1\n1 0 0 0 1 50' >"$tmp/in"
before=$fitted
fits "16 atoms beside a choice without its atom"
expect "16 atoms beside a choice without its atom are listed" [ "$fitted" -gt "$before" ]
# a disjunction that becomes a lone fact: an output statement knows that it holds, and that the other atom does not
printf 'asp 1 0 0\n1 0 2 1 2 0 0\n1 0 0 0 1 1\n4 1 a 1 1\n4 1 b 1 2\n4 1 n 1 -1\n0\n' >"$tmp/in"
printf 'b n\nModels       : 1\n' >"$tmp/want"
writes "a disjunction that becomes a fact" --models
printf 'asp 1 0 0\n1 0 1 2 0 0\n4 1 a 1 1\n4 1 b 1 2\n4 1 n 1 -1\n0\n' >"$tmp/want"
writes "a disjunction that becomes a fact, as aspif" ""

# statements beside the table that only choose among stable models leave the kind as it is
for beside in '2 0 1 2 1' '3 1 2' '6 1 2' '7 4 2 1 1 0' '8 0 1 1 2' '10 a comment' '9 1 0 2 go'; do
    printf 'asp 1 0 0\n1 1 2 1 2 0 0\n1 0 0 0 1 1\n%s\n0\n' "$beside" >"$tmp/in"
    printf 'asp 1 0 0\n1 1 1 2 0 0\n%s\n0\n' "$beside" >"$tmp/want"
    writes "atoms that can't be, beside $beside" ""
done

# left_alone WHAT STATEMENTS: with these beside it the constraint of atom 1 stays, as the atom may be derived or set there; a list
# that excludes it is refused in words, and one that is wrong before that as any list
left_alone() {
    # shellcheck disable=SC2059
    printf "asp 1 0 0\n1 0 0 0 1 1\n$2\n4 1 a 1 1\n4 1 b 1 2\n0\n" >"$tmp/in"
    cp "$tmp/in" "$tmp/want"
    writes "$1: the constraint stays" ""
    models "$tmp/in" >"$tmp/models"
    build/gambrolt "--steps=$tmp/list" "--explain=$tmp/told" --stats <"$tmp/in" >"$tmp/out" 2>"$tmp/err"
    models "$tmp/out" >"$tmp/reduced"
    expect "$1: the same stable models" same "$tmp/models" "$tmp/reduced"
    expect "$1: no step of kind 9 in the list" sh -c '! grep -q "^step=9" "$0"' "$tmp/list"
    expect "$1: none is told" sh -c '! grep -q "can.t be" "$0"' "$tmp/told"
    expect "$1: none is counted" grep -q '^  9 excluded  *0$' "$tmp/err"
    says "$1: its own list" 0 "yes: the list's 0 steps" "--check=$tmp/list"
    printf 'steps=1\nstep=9,0,0,0\n' >"$tmp/list"
    says "$1: a list of kind 9" 1 "list, line 2: step 0, 9,0,0,0: no atom may be excluded here: a rule, an external or a theory beside the table may derive or set it" "--check=$tmp/list"
    printf '{"steps": 1, "list": [\n {"step": [9, 0, 0, 0]}]}\n' >"$tmp/list"
    says "$1: a list of kind 9 in JSON" 1 "no atom may be excluded here" "--check=$tmp/list"
    printf 'steps=2\nstep=2,0,0,0\nstep=9,0,0,0\n' >"$tmp/list"
    says "$1: a list that is wrong before" 1 "step 0, 2,0,0,0: the condition of a step does not hold (refused=16,0)" "--check=$tmp/list"
    printf 'steps=2\nstep=9,0,0,0\nstep=2,0,0,0\n' >"$tmp/list"
    says "$1: a list that is wrong behind" 1 "step 0, 9,0,0,0: no atom may be excluded here" "--check=$tmp/list"
}
left_alone "a weight body" '1 0 1 1 1 1 1 2 1\n1 1 1 2 0 0'
left_alone "a choice with a weight body" '1 1 1 1 1 1 1 2 1\n1 1 1 2 0 0'
left_alone "an external" '5 1 0\n1 1 1 2 0 0'
left_alone "an external that is true" '5 1 1\n1 1 1 2 0 0'
left_alone "a theory atom" '1 1 1 2 0 0\n9 1 0 2 go\n9 5 1 0 0'
left_alone "a constraint with a weight body" '1 0 2 1 2 0 0\n1 0 0 1 2 2 1 1 2 1'
# steps before the first of kind 9 stay: c :- c. and d :- e. go, the constraint of 1 is left
printf 'asp 1 0 0\n1 0 1 3 0 1 3\n1 0 0 0 1 1\n1 0 1 4 0 1 5\n1 0 1 1 1 1 1 2 1\n1 1 1 2 0 0\n0\n' >"$tmp/in"
printf 'asp 1 0 0\n1 0 0 0 1 1\n1 0 1 1 1 1 1 2 1\n1 1 1 2 0 0\n0\n' >"$tmp/want"
writes "steps before the first of kind 9" ""
build/gambrolt "--steps=$tmp/list" --dry-run <"$tmp/in"
printf 'steps=2\nstep=1,0,0,2\nstep=6,2,0,4\n' >"$tmp/want"
expect "steps before the first of kind 9: the list" same "$tmp/want" "$tmp/list"

# random_exclusions SEED BESIDE: constraints, rules, choices, disjunctions and negations over few atoms; with BESIDE 1 a rule with
# a weight body for one or two of them, or an external, with BESIDE 2 in its place what the table has for that, `a | y.`
random_exclusions() {
    awk -v seed="$1" -v beside="$2" '
        function draw(n) { state = (16807 * state) % 2147483647; return int(state / 7) % n }
        function atom() { return 1 + draw(atoms) }
        function rule(kind) {
            if (kind < 3) return "0 0 0 1 " atom()
            if (kind < 4) return "0 0 0 2 " atom() " " atom()
            if (kind < 7) return "0 1 " atom() " 0 1 " atom()
            if (kind < 8) return "0 1 " atom() " 0 2 " atom() " " atom()
            if (kind < 9) return "1 2 " atom() " " atom() " 0 0"
            if (kind < 10) return "1 2 " atom() " " atom() " 0 1 " (draw(2) ? "-" : "") atom()
            if (kind < 12) return "0 2 " atom() " " atom() " 0 0"
            if (kind < 13) return "0 2 " atom() " " atom() " 0 1 " atom()
            if (kind < 15) return "0 1 " atom() " 0 1 -" atom()
            return "0 1 " atom() " 0 2 " atom() " -" atom()
        }
        BEGIN {
            state = seed * 7919 + 41
            for (i = 0; i < 20; i++) draw(2)
            atoms = 3 + draw(6); rules = 4 + draw(12)
            print "asp 1 0 0"
            for (i = 1; i <= atoms; i++) print "4 2 p" i " 1 " i
            for (i = 0; i < rules; i++) print "1 " rule(draw(16))
            outside = draw(3); one = atom(); other = atom()
            weights = "1 1 2 " atom() " 1 -" atom() " 1"
            if (beside == 1 && outside == 0) print "5 9 0\n1 0 0 0 1 9"
            if (beside == 1 && outside == 1) print "1 0 1 " one " " weights
            if (beside == 1 && outside == 2) print "1 1 2 " one " " other " " weights
            if (beside == 2 && outside == 0) print "1 0 2 9 10 0 0\n1 0 0 0 1 9"
            if (beside == 2 && outside > 0) print "1 0 2 " one " 11 0 0"
            if (beside == 2 && outside == 2) print "1 0 2 " other " 12 0 0"
            print "0"
        }'
}

# excludes: how many steps of kind 9 there are for the order in $tmp/in
excludes() {
    build/gambrolt --stats=json --dry-run <"$tmp/in" 2>&1 | sed -n 's/.*"excluded": \([0-9]*\)}.*/\1/p'
}

: >"$tmp/counts"
seed=1
while [ "$seed" -le "${RANDOM_PROGRAMS:-150}" ]; do
    for beside in 0 1; do
        random_exclusions "$seed" "$beside" >"$tmp/in"
        build/gambrolt <"$tmp/in" >"$tmp/out" 2>"$tmp/err"
        expect "random exclusions $seed $beside: status 0: $(cat "$tmp/err")" [ -s "$tmp/out" ]
        models "$tmp/in" >"$tmp/models"
        models "$tmp/out" >"$tmp/reduced"
        expect "random exclusions $seed $beside: an answer" grep -q SATISFIABLE "$tmp/models"
        expect "random exclusions $seed $beside: the same stable models" same "$tmp/models" "$tmp/reduced"
        build/gambrolt <"$tmp/out" >"$tmp/twice"
        expect "random exclusions $seed $beside: nothing is left to reduce" same "$tmp/out" "$tmp/twice"
        steps=$(excludes)
        if [ "$beside" -eq 1 ]; then
            expect "random exclusions $seed: no step of kind 9 beside what is carried" [ "$steps" -eq 0 ]
            random_exclusions "$seed" 2 >"$tmp/in"
            [ "$(excludes)" -gt 0 ] && echo "cut $(grep -c model "$tmp/models")" >>"$tmp/counts"
        elif [ "$steps" -gt 0 ]; then
            echo "excluded $(grep -c model "$tmp/models")" >>"$tmp/counts"
            grep -q '^1 1 ' "$tmp/in" && echo choice >>"$tmp/counts"
            fits "random exclusions $seed" # $tmp/in and $tmp/out of the run without options
            build/gambrolt --to-lp <"$tmp/in" 2>/dev/null | gringo 2>/dev/null >"$tmp/out"
            models "$tmp/out" >"$tmp/reduced"
            expect "random exclusions $seed: the same stable models from ground rules" same "$tmp/models" "$tmp/reduced"
        fi
    done
    seed=$((seed + 1))
done
echo "random exclusions: $(grep -c excluded "$tmp/counts") orders with steps of kind 9, $(grep -c choice "$tmp/counts") of them with choices; $(grep -c cut "$tmp/counts") cut lists"
expect "a third of the random orders have steps of kind 9" [ "$(grep -c excluded "$tmp/counts")" -gt $((seed / 3)) ]
expect "an eighth of them and choices" [ "$(grep -c choice "$tmp/counts")" -gt $((seed / 8)) ]
expect "of an eighth of them a list is cut" [ "$(grep -c cut "$tmp/counts")" -gt $((seed / 8)) ]
expect "orders with steps of kind 9 that have models" [ "$(grep -c 'excluded [1-9]' "$tmp/counts")" -gt $((seed / 8)) ]
expect "orders with cut lists that have models" [ "$(grep -c 'cut [1-9]' "$tmp/counts")" -gt $((seed / 16)) ]
