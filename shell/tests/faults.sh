# faults.sh - faults that the program once had, each by the order that showed it.

# through OPTION..: the order in $tmp/order.lp through --to-lp, as aspif again in $tmp/out; as it came in $tmp/in.
through() {
    gringo "$tmp/order.lp" >"$tmp/in" 2>/dev/null
    build/gambrolt --to-lp "$@" <"$tmp/in" 2>"$tmp/err" | gringo >"$tmp/out" 2>/dev/null
}

# 1: statements about atoms that no rule is left for
rules='a|b. s :- not w. w :- n, not s. n :- w. p :- not s. f :- not w. '
for options in "" --no-reduce; do
    for statement in '#project p/0. #show a/0.' '#project p/0. #project a/0.'; do
        echo "$rules $statement" >"$tmp/order.lp"
        # shellcheck disable=SC2086
        through $options
        models "$tmp/in" --project | grep -c model >"$tmp/want"
        models "$tmp/out" --project | grep -c model >"$tmp/got"
        expect "--to-lp $options keeps $statement" same "$tmp/want" "$tmp/got"
    done
    for statement in '#minimize {1:p}.' '#minimize {1@2:p; 1@1:a}.' '#minimize {1@3:not f; 1@1:a}.' '#minimize {1@2:p; 2@5:not w; 1:not s}.' \
        '#maximize {3@2:p,a; 1@1:b}.'; do
        echo "$rules $statement" >"$tmp/order.lp"
        # shellcheck disable=SC2086
        through $options
        for file in in out; do
            clasp 0 --opt-mode=optN "$tmp/$file" | grep '^Optimization : ' >"$tmp/best.$file"
        done
        expect "an optimum of $statement" grep -q '^Optimization : ' "$tmp/best.in"
        expect "--to-lp $options keeps $statement" same "$tmp/best.in" "$tmp/best.out"
    done
done
echo '{a;b}. c :- 2 #sum {1:a; 1,x:d}. d :- c. p :- c, not a. #minimize {1@2:p; 1@1:a}. #project p/0.' >"$tmp/order.lp"
through
for file in in out; do
    { models "$tmp/$file" --project --opt-mode=ignore | grep -c model; clasp 0 "$tmp/$file" | grep '^Optimization : '; } >"$tmp/best.$file"
done
expect "--to-lp keeps what gringo finds out behind weights" same "$tmp/best.in" "$tmp/best.out"

# 2: an empty name is none
printf 'asp 1 0 0\n1 0 1 1 0 1 -2\n1 0 1 2 0 1 -1\n4 0  1 1\n4 1 b 1 2\n0\n' >"$tmp/in"
printf 'x_1 :- not b.\nb :- not x_1.\n#show.\n#show b : b.\n' >"$tmp/want"
build/gambrolt --to-lp <"$tmp/in" >"$tmp/out"
expect "an empty name" same "$tmp/want" "$tmp/out"

# 3: names only from rules that fit one by one, both ways
cp shell/tests/data/order.aspif "$tmp/in"
build/gambrolt --to-lp <"$tmp/in" >"$tmp/want"
sed 3d shell/tests/data/order.ground >"$tmp/one-less"
sed '$d' shell/tests/data/order.ground >"$tmp/last-less"
head -20 shell/tests/data/order.ground >"$tmp/head"
sed '5p' shell/tests/data/order.ground >"$tmp/one-more"
{ cat shell/tests/data/order.ground; echo 'more.'; } >"$tmp/last-more"
sed '1s/.*/{a;b}./' shell/tests/data/order.ground >"$tmp/choice"
{ echo 'x:-2<=#sum{1:y}.'; sed 1,2d shell/tests/data/order.ground; } >"$tmp/unread"
for names in /dev/null "$tmp/one-less" "$tmp/last-less" "$tmp/head" "$tmp/one-more" "$tmp/last-more" "$tmp/choice" "$tmp/unread"; do
    build/gambrolt --to-lp "--names=$names" <"$tmp/in" >"$tmp/out" 2>"$tmp/err"
    expect "names of $(basename "$names"): a note" grep -q "names: its rules do not fit" "$tmp/err"
    expect "names of $(basename "$names"): none" same "$tmp/want" "$tmp/out"
done
printf 'asp 1 0 0\n1 0 1 1 0 0\n1 0 1 2 0 0\n0\n' >"$tmp/in"
echo 'second.' >"$tmp/text"
build/gambrolt --to-lp "--names=$tmp/text" <"$tmp/in" 2>&1 | grep -c 'second\|do not fit' >"$tmp/out"
expect "names of some facts: none" [ "$(cat "$tmp/out")" = 1 ]

# choices, and rules that gringo makes for minimize statements, aggregates and anonymous variables, fit theirs
cat >"$tmp/order.lp" <<'END'
cell(1..3). { take(C) : cell(C) }. heavy :- 2 #sum { C : take(C) }. full :- heavy, not cell(4). :~ take(1), take(2). [3@1]
{ box(C) : cell(C) } = 1 :- heavy. open :- not heavy. any :- box(_). #show take/1.
END
gringo --text "$tmp/order.lp" >"$tmp/text" 2>/dev/null
gringo "$tmp/order.lp" 2>/dev/null | build/gambrolt --to-lp "--names=$tmp/text" >"$tmp/out" 2>"$tmp/err"
expect "names beside choices and aggregates: no note" [ ! -s "$tmp/err" ]
for rule in 'cell(1).' '{take(1)' 'full :- heavy.' 'open :- not heavy.' 'any :- box(3).'; do
    expect "names beside choices and aggregates: $rule" grep -qF "$rule" "$tmp/out"
done
echo '{ a; b }. heavy :- 2 { a; b }. { c; d } = 1 :- heavy. #show a/0.' >"$tmp/order.lp"
gringo --text "$tmp/order.lp" >"$tmp/text"
gringo "$tmp/order.lp" | build/gambrolt --to-lp "--names=$tmp/text" >"$tmp/out" 2>"$tmp/err"
expect "a name that stands behind an aggregate" grep -q "^heavy :- x_[0-9]*\.$" "$tmp/out"
echo 'fits(1..2,7). { take(C) : fits(C,_) }. any :- not take(_), fits(_,7). #show take/1.' >"$tmp/order.lp"
gringo --text "$tmp/order.lp" >"$tmp/text" 2>/dev/null
expect "an atom that gringo makes" grep -q '^#p_' "$tmp/text"
gringo "$tmp/order.lp" | build/gambrolt --to-lp "--names=$tmp/text" >"$tmp/out" 2>"$tmp/err"
expect "names beside anonymous variables: no note" [ ! -s "$tmp/err" ]
expect "names beside anonymous variables" sh -c 'grep -qF "fits(2,7)." "$0" && grep -q "^any :- not x_[0-9]*\.$" "$0"' "$tmp/out"

# 6: reading takes time in proportion to what is read, up to full size: four times as many words take less than four times as long (the best
# of ten runs each, in microseconds)
order() {
    awk -v most="$1" 'BEGIN {
        state = 7; words = 2
        print "asp 1 0 0"
        while (words < most) {
            state = (16807 * state) % 2147483647; head = 1 + state % 1024
            state = (16807 * state) % 2147483647; n = int(state / 1024) % 3
            line = "1 0 1 " head " 0 " n
            for (k = 0; k < n; k++) { state = (16807 * state) % 2147483647; line = line (int(state / 2048) % 2 ? " " : " -") 1 + 2 * (state % 512) + k }
            print line
            words += 4 + n
        }
        print "0"
    }'
}
reading() {
    order "$1" >"$tmp/in"
    for run in 1 2 3 4 5 6 7 8 9 10; do
        build/gambrolt --stats=json --dry-run <"$tmp/in" 2>&1 | sed -n 's/.*"reading": \([0-9.]*\), "reducing": .*/\1/p'
    done | awk '{ read = $1 * 1e6 } NR == 1 || read < best { best = read } END { print NR, best }'
}
echo "$(reading 2045) $(reading 8180)" >"$tmp/times"
expect "four times as much is read in less than four times as long: $(cat "$tmp/times")" awk '{ exit !($1 == 10 && $3 == 10 && $4 < 4 * $2) }' "$tmp/times"
