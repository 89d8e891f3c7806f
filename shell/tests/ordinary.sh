# ordinary.sh - choices, weight bodies, externals, theories and facts that are led round the table: what is written, byte
# for byte, worked out by hand; `writes` is that of forms.sh.

# a choice: an atom of it goes by itself, conditions that hold are dropped, equal bodies are one choice at the first's place
cat >"$tmp/in" <<'END'
asp 1 0 0
1 1 2 3 2 0 2 5 -6
1 0 1 5 0 0
1 1 1 4 0 0
1 1 2 7 7 0 2 7 -8
1 1 1 2 0 1 9
1 1 2 10 11 0 1 4
1 1 1 12 0 2 4 4
1 1 0 0 1 4
1 1 1 5 0 1 4
1 1 1 13 0 1 3
1 1 1 14 0 1 -4
0
END
cat >"$tmp/want" <<'END'
asp 1 0 0
1 1 3 2 3 4 0 0
1 0 1 5 0 0
1 1 3 10 11 12 0 1 4
1 1 1 13 0 1 3
1 1 1 14 0 1 -4
0
END
writes "choices" ""
cat >"$tmp/want" <<'END'
{x_2; x_3; x_4}.
x_5.
{x_10; x_11; x_12} :- x_4.
{x_13} :- x_3.
{x_14} :- not x_4.
#show.
END
writes "choices as rules" --to-lp
cat >"$tmp/want" <<'END'
asp 1 0 0
1 1 2 2 3 0 2 5 -6
1 0 1 5 0 0
1 1 1 4 0 0
1 1 1 7 0 2 7 -8
1 1 1 2 0 1 9
1 1 2 10 11 0 1 4
1 1 1 12 0 1 4
1 1 1 5 0 1 4
1 1 1 13 0 1 3
1 1 1 14 0 1 -4
0
END
writes "choices without a reduction" --no-reduce
cat >"$tmp/want" <<'END'
clause 3, `{x_7} :- x_7, not x_8.`: deleted, since it derives `x_7` only where that already holds
clause 3, `{x_7} :- x_7, not x_8.`: deleted, since it derives `x_7` only where that already holds
clause 0, `{x_3} :- x_5, not x_6.`: dropped `x_5`, which clause 1 gives as a fact
clause 0, `{x_2} :- x_5, not x_6.`: dropped `x_5`, which clause 1 gives as a fact
clause 0, `{x_3} :- not x_6.`: dropped `not x_6`, which no clause can derive
clause 0, `{x_2} :- not x_6.`: dropped `not x_6`, which no clause can derive
clause 4, `{x_2} :- x_9.`: deleted, since it needs `x_9`, which no clause can derive
clause 8, `{x_5} :- x_4.`: deleted, since clause 1, `x_5.`, already covers it
END
build/gambrolt --explain --dry-run <"$tmp/in" 2>"$tmp/out"
expect "sentences about choices" same "$tmp/want" "$tmp/out"
build/gambrolt --to-text <"$tmp/in" >"$tmp/out" 2>"$tmp/err"
expect "choices as text are refused" sh -c '[ "$1" -eq 1 ] && grep -q "line 2: choice rule: the text form has none; .*--trans-ext" "$0"' "$tmp/err" $?

# guards: what is derived by weights, set from outside or by a theory counts as derivable; a fact still is one
cat >"$tmp/in" <<'END'
asp 1 0 0
1 0 1 1 1 2 3 2 1 3 1 -4 1
1 1 2 2 3 0 0
1 0 1 5 0 1 1
1 0 1 6 0 1 -1
1 0 1 7 0 2 8 -20
5 8 0
1 0 1 9 0 1 10
1  1 1 11 1 1 1 9 1
1 0 1 11 0 0
1 0 1 12 0 1 11
9 1 0 2 go
9 5 13 0 0
9 5 14 0 0
9 5 0 0 0
1 0 1 14 0 2 2 15
1 0 0 0 2 -13 14
1 0 1 16 0 1 17
1 0 1 17 0 1 16
1 0 1 16 1 3 2 16 3 18 3
0
END
cat >"$tmp/want" <<'END'
asp 1 0 0
1 0 1 1 1 2 3 2 1 3 1 -4 1
1 1 2 2 3 0 0
1 0 1 5 0 1 1
1 0 1 6 0 1 -1
1 0 1 7 0 1 8
5 8 0
1  1 1 11 1 1 1 9 1
1 0 1 11 0 0
1 0 1 12 0 0
9 1 0 2 go
9 5 13 0 0
9 5 14 0 0
9 5 0 0 0
1 0 1 14 0 2 2 15
1 0 0 0 2 14 -13
1 0 1 16 0 1 17
1 0 1 17 0 1 16
1 0 1 16 1 3 2 16 3 18 3
0
END
writes "rules that are carried" ""
cp "$tmp/want" "$tmp/reduced"
models "$tmp/in" >"$tmp/models"
models "$tmp/reduced" >"$tmp/want"
expect "rules that are carried: the same stable models" same "$tmp/models" "$tmp/want"
cat >"$tmp/want" <<'END'
clause 8, `x_12 :- x_11.`: dropped `x_11`, which clause 7 gives as a fact
clause 4, `x_7 :- x_8, not x_20.`: dropped `not x_20`, which no clause can derive
clause 5, `x_9 :- x_10.`: deleted, since it needs `x_10`, which no clause can derive
END
build/gambrolt --explain --dry-run <"$tmp/in" 2>"$tmp/out"
expect "sentences beside rules that are carried" same "$tmp/want" "$tmp/out"
build/gambrolt --stats --dry-run <"$tmp/in" 2>&1 | sed -n '2,5p' | tr -s ' ' >"$tmp/out"
printf 'clauses 11 10\nbody literals 10 7\natoms 16 13\ncarried rules 4 4\n' >"$tmp/want"
expect "figures beside rules that are carried" same "$tmp/want" "$tmp/out"
build/gambrolt --to-lp <"$tmp/in" >"$tmp/out" 2>"$tmp/err"
expect "theories as rules are refused" sh -c '[ "$1" -eq 1 ] && [ ! -s "$2" ] && grep -q "line 12: theory statement: --to-lp" "$0"' "$tmp/err" $? "$tmp/out"
grep -v '^9 ' "$tmp/in" >"$tmp/plain" && mv "$tmp/plain" "$tmp/in"
cat >"$tmp/want" <<'END'
x_1 :- 2 #sum { 1,0 : x_2; 1,1 : x_3; 1,2 : not x_4 }.
{x_2; x_3}.
x_5 :- x_1.
x_6 :- not x_1.
x_7 :- x_8.
{x_11} :- 1 #sum { 1,0 : x_9 }.
x_11.
x_12.
x_16 :- x_17.
x_17 :- x_16.
x_16 :- 3 #sum { 3,0 : x_16; 3,1 : x_18 }.
#show.
#external x_8. [free]
END
writes "rules that are carried, as rules" --to-lp
printf 'asp 1 0 0\n1 1 0 1 1 1 5 1\n1 0 0 1 2 1 5 2\n1 0 2 7 6 1 0 0\n1 1 0 0 0\n0\n' >"$tmp/in"
printf '{} :- 1 #sum { 1,0 : x_5 }.\n:- 2 #sum { 2,0 : x_5 }.\nx_7 | x_6 :- 0 #sum { }.\n#show.\n' >"$tmp/want"
writes "heads and bodies of nothing, as rules" --to-lp

# facts that nothing else mentions are led round the table, however many; those that something mentions are in it, and of two
# equal ones the first is kept
awk 'BEGIN { print "asp 1 0 0"; for (i = 1; i <= 5000; i++) print "1 0 1 " i " 0 0"
    print "1 0 1 5001 0 2 -5002 4999\n1 0 1 5003 1 2 2 4998 1 5001 1\n1 0 1 4997 0 0\n0" }' >"$tmp/in"
sed 's/^1 0 1 5001 .*/1 0 1 5001 0 0/' "$tmp/in" | awk '!($0 == "1 0 1 4997 0 0" && met++)' >"$tmp/want"
writes "5,000 facts" ""
build/gambrolt --stats=json --dry-run <"$tmp/in" 2>&1 | grep -E '^ "(clauses|atoms)' >"$tmp/out"
printf ' "clauses": {"before": 5002, "after": 5001},\n "atoms": {"before": 5002, "after": 5001},\n' >"$tmp/want"
expect "figures of 5,000 facts" same "$tmp/want" "$tmp/out"

# several statements on a line
printf 'asp 1 0 0\n1 1 1 1 0 0 4 1 a 1 1 1 0 1 2 0 1 3\n10 1 1 1 4 0 0\n5 3 1 0' >"$tmp/in"
printf 'asp 1 0 0\n1 1 1 1 0 0\n4 1 a 1 1\n1 0 1 2 0 1 3\n10 1 1 1 4 0 0\n5 3 1\n0\n' >"$tmp/want"
writes "several statements on a line" ""

# externals set by assumption: each way the same stable models
ground examples/ordinary/externals.lp >"$tmp/plain"
for literals in '1 %d' '1 -%d' '2 %d -%d'; do
    awk -v form="$literals" '$1 == 5 && $3 == 0 { atom[++n] = $2 } $0 == "0" { printf "6 " form "\n", atom[1], atom[2] } { print }' "$tmp/plain" >"$tmp/in"
    expect "an assumption" grep -q '^6 [12] -*[1-9]' "$tmp/in"
    build/gambrolt <"$tmp/in" >"$tmp/out"
    models "$tmp/in" >"$tmp/models"
    models "$tmp/out" >"$tmp/reduced"
    expect "externals by assumption 6 $literals: some model" grep -q model "$tmp/models"
    expect "externals by assumption 6 $literals" same "$tmp/models" "$tmp/reduced"
done
models "$tmp/plain" >"$tmp/reduced"
expect "an assumption matters" sh -c '! cmp -s "$0" "$1"' "$tmp/models" "$tmp/reduced"
