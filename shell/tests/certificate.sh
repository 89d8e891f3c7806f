# certificate.sh - the list of steps: written a line a step or as JSON, read back, and checked against the input.

# says WHAT STATUS FRAGMENT OPTION..: the check of the order in $tmp/in ends so, with one line that has the fragment.
says() {
    what=$1 want=$2 fragment=$3
    shift 3
    for program in build/gambrolt build/sanitized/gambrolt; do
        $program "$@" <"$tmp/in" >"$tmp/out" 2>"$tmp/err"
        status=$?
        expect "$what: status $want, not $status" [ "$status" -eq "$want" ]
        cat "$tmp/out" "$tmp/err" >"$tmp/said"
        expect "$what: one line" [ "$(wc -l <"$tmp/said")" -eq 1 ]
        expect "$what: \`$fragment\` in: $(cat "$tmp/said")" grep -qF -- "$fragment" "$tmp/said"
    done
}

# document 01's example
cp examples/document-01.txt "$tmp/in"
build/gambrolt --text "--steps=$tmp/list" <"$tmp/in" >"$tmp/out"
printf 'steps=4\nstep=1,2,0,3\nstep=3,1,0,0\nstep=6,3,0,3\nstep=4,1,0,2\n' >"$tmp/want"
expect "document 01's list" same "$tmp/want" "$tmp/list"
says "document 01's list" 0 "yes: the list's 4 steps keep the stable models" --text "--check=$tmp/list"
build/gambrolt --text "--steps=$tmp/list.json" --dry-run <"$tmp/in"
expect "document 01's list in JSON" grep -qF '{"step": [3, 1, 0, 0], "kind": "success", "rule": 1, "line": 6, "partner_rule": 0, "partner_line": 3, "atom": 0, "name": "a(0)"}' "$tmp/list.json"
says "document 01's list in JSON" 0 "yes: the list's 4 steps" --text "--check=$tmp/list.json"
printf 'steps=0\n' >"$tmp/list"
says "no steps" 0 "yes: the list's 0 steps" --text "--check=$tmp/list"

# every refusal of a list, with its step
refuses() {
    # shellcheck disable=SC2059
    printf "$2" >"$tmp/list"
    says "a list: $1" 1 "$3" --text "--check=$tmp/list"
}
refuses "a kind" 'steps=1\nstep=10,2,0,3\n' "list, line 2: step 0, 10,2,0,3: the kind of a step is not 1 to 9 (refused=12,0)"
refuses "a target" 'steps=2\nstep=1,2,0,3\nstep=1,2,0,3\n' "list, line 3: step 1, 1,2,0,3: the target of a step is not a kept clause (refused=13,1)"
refuses "a partner" 'steps=1\nstep=8,1,1,0\n' "refused=14,0"
refuses "an atom" 'steps=1\nstep=6,3,0,4\n' "refused=15,0"
refuses "the atom of a success" 'steps=1\nstep=3,1,0,2\n' "list, line 2: step 0, 3,1,0,2: the atom of a success step is not the one head atom of its partner (refused=29,0)"
refuses "a failure as a loop" 'steps=2\nstep=1,2,0,3\nstep=7,3,0,3\n' "list, line 3: step 1, 7,3,0,3: the atom of a loop step is in no kept head; a failure is kind 6 (refused=32,1)"
refuses "a condition" 'steps=1\nstep=6,3,0,3\n' "the condition of a step does not hold (refused=16,0)"
for list in '' 'steps\n' 'steps=\n' 'steps=8191\n' 'steps=1x\n' ' steps=0\n' '{"steps": 1\n'; do
    refuses "no number: $list" "$list" "list, line 1: not the number of steps, at most 8190"
done
for list in 'steps=1\n' 'steps=1\nstep=1,2,0\n' 'steps=1\nstep=1,2,0,3' 'steps=1\nstep=1,2,0,3,4\n' 'steps=1\nstep=-1,2,0,3\n' 'steps=1\nstep=1,2,0,123456\n' \
    'steps=1\n\nstep=1,2,0,3\n' '{"steps": 1, "list": [\n {"step": [1, 2, 0], "kind": "x"}]}\n'; do
    refuses "no step: $list" "$list" "list, line 2: not a step of four numbers"
done
refuses "a large number" 'steps=1\nstep=1,2,0,65536\n' "list, line 2: a number is over 65535"
refuses "a line more" 'steps=1\nstep=1,2,0,3\nstep=1,2,0,3\n' "list, line 3: more than the number of steps"
refuses "a zero byte" 'steps=1\nstep=1,2\000,0,3\n' "list, line 2: not a step"

# 1. 0 <- 1.: the line, the object and the sentence of a success name its atom; a line with 0 in its place is refused
printf 'atoms=2\nclauses=2\nhead=1\npos=\nneg=\nhead=0\npos=1\nneg=\n' >"$tmp/in"
build/gambrolt --text "--steps=$tmp/list" "--explain=$tmp/told" --dry-run <"$tmp/in"
printf 'steps=1\nstep=3,1,0,1\n' >"$tmp/want"
expect "a success's line" same "$tmp/want" "$tmp/list"
says "a success's line" 0 "yes: the list's 1 steps" --text "--check=$tmp/list"
# shellcheck disable=SC2016
echo 'clause 1, `a(0) :- a(1).`: dropped `a(1)`, which clause 0 gives as a fact' >"$tmp/want"
expect "a success's sentence" same "$tmp/want" "$tmp/told"
build/gambrolt --text "--steps=$tmp/list.json" --dry-run <"$tmp/in"
expect "a success's object" grep -qF '{"step": [3, 1, 0, 1], "kind": "success", "rule": 1, "line": 6, "partner_rule": 0, "partner_line": 3, "atom": 1, "name": "a(1)"}' "$tmp/list.json"
refuses "a success without its atom" 'steps=1\nstep=3,1,0,0\n' "step 0, 3,1,0,0: the atom of a success step is not the one head atom of its partner (refused=29,0)"

# 0 <- 1. 1 <- 0.: the reducer names the loop by 7 and the failure behind it by 6; the failure by 7 is refused, in both forms
printf 'atoms=2\nclauses=2\nhead=0\npos=1\nneg=\nhead=1\npos=0\nneg=\n' >"$tmp/in"
build/gambrolt --text "--steps=$tmp/list" "--explain=$tmp/told" --dry-run <"$tmp/in"
printf 'steps=2\nstep=7,0,0,1\nstep=6,1,0,0\n' >"$tmp/want"
expect "a loop's and a failure's line" same "$tmp/want" "$tmp/list"
says "a loop's and a failure's line" 0 "yes: the list's 2 steps" --text "--check=$tmp/list"
cat >"$tmp/want" <<'END'
clause 0, `a(0) :- a(1).`: deleted, since it needs `a(1)`, which is derived only in a circle: `a(1)` needs `a(0)`, `a(0)` needs `a(1)`
clause 1, `a(1) :- a(0).`: deleted, since it needs `a(0)`, which no clause can derive
END
expect "a loop's and a failure's sentence" same "$tmp/want" "$tmp/told"
refuses "a failure named by 7" 'steps=2\nstep=7,0,0,1\nstep=7,1,0,0\n' "list, line 3: step 1, 7,1,0,0: the atom of a loop step is in no kept head; a failure is kind 6 (refused=32,1)"
refuses "a failure named by 7, in JSON" '{"steps": 2, "list": [\n {"step": [7, 1, 0, 0]},\n {"step": [7, 0, 0, 1]}]}\n' "list, line 3: step 1, 7,0,0,1: the atom of a loop step is in no kept head; a failure is kind 6 (refused=32,1)"
refuses "a loop step whose atom is in a head" 'steps=1\nstep=7,0,0,0\n' "step 0, 7,0,0,0: the condition of a step does not hold (refused=16,0)"

# 0 <- ~1. 1 <- ~0. 0 <- ~1.: the earlier of two equal rules is kept, and the list, the object and the sentence name the later one as deleted
# because of it; a list that deletes the earlier one is taken too
printf 'atoms=2\nclauses=3\nhead=0\npos=\nneg=1\nhead=1\npos=\nneg=0\nhead=0\npos=\nneg=1\n' >"$tmp/in"
build/gambrolt --text "--steps=$tmp/list" "--explain=$tmp/told" <"$tmp/in" >"$tmp/out"
printf 'atoms=2\nclauses=2\nhead=0\npos=\nneg=1\nhead=1\npos=\nneg=0\n' >"$tmp/want"
expect "equal rules: the earlier is kept" same "$tmp/want" "$tmp/out"
printf 'steps=1\nstep=8,2,0,0\n' >"$tmp/want"
expect "equal rules: the line" same "$tmp/want" "$tmp/list"
says "equal rules: the line" 0 "yes: the list's 1 steps" --text "--check=$tmp/list"
# shellcheck disable=SC2016
echo 'clause 2, `a(0) :- not a(1).`: deleted, since clause 0, `a(0) :- not a(1).`, says the same' >"$tmp/want"
expect "equal rules: the sentence" same "$tmp/want" "$tmp/told"
build/gambrolt --text "--steps=$tmp/list.json" --dry-run <"$tmp/in"
expect "equal rules: the object" grep -qF '{"step": [8, 2, 0, 0], "kind": "subsumed", "rule": 2, "line": 9, "partner_rule": 0, "partner_line": 3}' "$tmp/list.json"
printf 'steps=1\nstep=8,0,2,0\n' >"$tmp/list"
says "equal rules: the earlier deleted" 0 "yes: the list's 1 steps" --text "--check=$tmp/list"
refuses "equal rules: both deleted" 'steps=2\nstep=8,0,2,0\nstep=8,2,0,0\n' "list, line 3: step 1, 8,2,0,0: the partner of a step is not another kept clause"

# two empty clauses: kind 5, the later one by the earlier; the list may have either order, and kind 8
printf 'atoms=0\nclauses=2\nhead=\npos=\nneg=\nhead=\npos=\nneg=\n' >"$tmp/in"
build/gambrolt --text "--steps=$tmp/list" "--explain=$tmp/told" --dry-run <"$tmp/in"
printf 'steps=1\nstep=5,1,0,0\n' >"$tmp/want"
expect "empty clauses: the line" same "$tmp/want" "$tmp/list"
# shellcheck disable=SC2016
echo 'clause 1, `:-.`: deleted, since clause 0, `:-.`, rules out every stable model anyway' >"$tmp/want"
expect "empty clauses: the sentence" same "$tmp/want" "$tmp/told"
for step in 5,0,1,0 5,1,0,0 8,0,1,0 8,1,0,0; do
    printf 'steps=1\nstep=%s\n' "$step" >"$tmp/list"
    says "empty clauses: $step" 0 "yes: the list's 1 steps" --text "--check=$tmp/list"
done

# 0 <- 1. with an atom more: a failure at step 0, and an atom that is in no clause
printf 'atoms=3\nclauses=1\nhead=0\npos=1\nneg=\n' >"$tmp/in"
build/gambrolt --text "--steps=$tmp/list.json" --dry-run <"$tmp/in"
expect "a failure's object" grep -qF '{"step": [6, 0, 0, 1], "kind": "failure", "rule": 0, "line": 3, "atom": 1, "name": "a(1)"}' "$tmp/list.json"
refuses "a failure named by 7 at step 0" 'steps=1\nstep=7,0,0,1\n' "step 0, 7,0,0,1: the atom of a loop step is in no kept head; a failure is kind 6 (refused=32,0)"
refuses "a loop step whose atom is in no clause" 'steps=1\nstep=7,0,0,2\n' "refused=32,0"
refuses "a failure whose atom is in no clause" 'steps=1\nstep=6,0,0,2\n' "refused=16,0"

# aspif with choices and guards: the list of the reducer's own run, in both forms; another order's is refused
for order in mixed bins theory; do
    ground "examples/ordinary/$order.lp" >"$tmp/in"
    build/gambrolt "--steps=$tmp/list" <"$tmp/in" >"$tmp/left"
    build/gambrolt "--steps=$tmp/list.json" --dry-run <"$tmp/in"
    steps=$(sed -n 's/^steps=//p' "$tmp/list")
    says "$order: the list" 0 "yes: the list's $steps steps" "--check=$tmp/list"
    says "$order: the list in JSON" 0 "yes: the list's $steps steps" "--check=$tmp/list.json"
    sed -n 's/^ {"step": \[\([0-9, ]*\)\].*/step=\1/p' "$tmp/list.json" | tr -d ' ' >"$tmp/want"
    sed 1d "$tmp/list" >"$tmp/got"
    expect "$order: both forms have the same steps" same "$tmp/want" "$tmp/got"
done
ground examples/ordinary/bins.lp >"$tmp/in"
build/gambrolt "--steps=$tmp/list" --dry-run <"$tmp/in"
sed '2,$s/^\(step=[^,]*\),\([^,]*\)/\1,1\2/' "$tmp/list" >"$tmp/other"
says "targets that are not there" 1 "step 0, " "--check=$tmp/other"
ground examples/ordinary/mixed.lp >"$tmp/in"
says "another order's list" 1 "list, line 2: step 0, " "--check=$tmp/list"

# the objects: kind, rule, line, atom and name, also by ground rules; a guard is no rule
printf 'asp 1 0 0\n10 first\n1 0 1 1 0 0\n1 1 1 1 1 1 1 2 1\n1 1 1 2 0 2 1 -3\n4 4 a"\\b 1 1\n4 1 c 1 3\n1 0 1 4 0 1 4\n0\n' >"$tmp/in"
cat >"$tmp/want" <<'END'
{"steps": 4, "list": [
 {"step": [1, 2, 0, 3], "kind": "tautology", "rule": 3, "line": 8, "atom": 4, "name": "x_4"},
 {"step": [3, 1, 0, 0], "kind": "success", "rule": 2, "line": 5, "partner_rule": 0, "partner_line": 3, "atom": 1, "name": "x_1"},
 {"step": [4, 1, 0, 2], "kind": "no_head", "rule": 2, "line": 5, "atom": 3, "name": "c"},
 {"step": [8, 3, 0, 0], "kind": "subsumed", "rule": null, "partner_rule": 0, "partner_line": 3}]}
END
build/gambrolt "--steps=$tmp/list.json" --dry-run <"$tmp/in"
expect "objects" same "$tmp/want" "$tmp/list.json"
says "objects" 0 "yes: the list's 4 steps" "--check=$tmp/list.json"
printf 'first("\\\\").\n{x}:-1<=#count{0,y:y}.\n{y}:-first("\\\\"),not c.\nz:-z.\n' >"$tmp/text"
build/gambrolt "--steps=$tmp/list.json" "--names=$tmp/text" --dry-run <"$tmp/in" 2>"$tmp/err"
expect "objects with names of ground rules" sh -c 'grep -qF "\"name\": \"first(\\\"\\\\\\\\\\\")\"" "$0"' "$tmp/list.json"

# what can't be reduced can't be checked
printf 'asp 1 0 0 incremental\n0\n' >"$tmp/in"
printf 'steps=0\n' >"$tmp/list"
says "a program in several steps" 1 "line 1: header" "--check=$tmp/list"
