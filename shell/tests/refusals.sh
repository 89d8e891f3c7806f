# refusals.sh - bad input: status 1, one line on standard error that says where and what to do, nothing on standard output.

# refused WHAT OPTIONS FRAGMENT..: the input in $tmp/in must be refused with a line that has every fragment.
refused() {
    what=$1 options=$2
    shift 2
    for program in build/gambrolt build/sanitized/gambrolt; do
        # shellcheck disable=SC2086
        $program $options <"$tmp/in" >"$tmp/out" 2>"$tmp/err"
        status=$?
        expect "$what: status 1, not $status" [ "$status" -eq 1 ]
        expect "$what: nothing on standard output" [ ! -s "$tmp/out" ]
        expect "$what: one line on standard error" [ "$(wc -l <"$tmp/err")" -eq 1 ]
        for fragment; do
            expect "$what: \`$fragment\` in: $(cat "$tmp/err")" grep -qF -- "$fragment" "$tmp/err"
        done
    done
}

# bad WHAT LINES FRAGMENT..: a program of these lines (printf's format) after the header.
bad() {
    what=$1
    # shellcheck disable=SC2059
    printf "asp 1 0 0\n$2" >"$tmp/in"
    shift 2
    refused "$what" "" "$@"
}

: >"$tmp/in"
refused "empty input" "" "gambrolt: line 1: header: the input is empty" "did the grounder fail?"
printf 'hello\n' >"$tmp/in"
refused "no aspif" "" "line 1: header: not \`asp 1 0 0\`" "gringo"
printf 'a :- b.\n' >"$tmp/in"
refused "a program that is not grounded" "" "line 1: header: this looks like a program that is not grounded" "gringo"
printf '%% ten\np(1..10).\n' >"$tmp/in"
refused "a program that begins with a comment" "" "line 1: header: this looks like a program that is not grounded"
printf '1 2 0 0\n0\n2 a\n0\nB+\n0\nB-\n1\n0\n1\n' >"$tmp/in"
refused "smodels" "" "line 1: header: this looks like the format of smodels" "--output=smodels"
printf 'asp 1 0 0' >"$tmp/in"
refused "a header alone" "" "line 1: header"
printf 'asp 2 0 0\n0\n' >"$tmp/in"
refused "another version" "" "line 1: header"
printf 'asp 1 0 0 incremental\n0\n' >"$tmp/in"
refused "several steps" "" "line 1: header: programs in several steps are not reduced" "--pass-through"
printf 'asp 1 0 0 incrementals\n0\n' >"$tmp/in"
refused "an unknown tag" "" "line 1: header: "
printf 'asp 1 0 0 incremental\n0\n1 0 1 1x 0 0\n0\n' >"$tmp/in"
refused "a fault in the second step" --pass-through "line 3: rule: \`1x\` where an atom"
printf 'asp 1 0 0 incremental\n0\n1 0 1 1 0 0\n' >"$tmp/in"
refused "a second step without end" --pass-through "line 4: statement: the input ends"
printf 'asp 1 0 0\r\n1 0 1 1 0 0\r\n0\r\n' >"$tmp/in"
refused "CRLF header" "" "line 1: header: carriage return" "tr -d"
cp examples/document-01.txt "$tmp/in"
refused "the text form without --text" "" "line 1: header: this is the text form" "--text"

bad "no end" '1 0 1 1 0 0\n' "line 3: statement: the input ends" "was the grounder stopped?"
bad "cut off inside a rule" '1 0 1 1 0 0\n1 0 1 2' "line 3: rule: the input ends"
bad "cut off after a rule" '1 0 1 1 0 0' "line 2: rule: the input ends where the end of the line"
bad "a short line" '1 0 2 1\n0\n' "line 2: rule: the line ends where an atom"
bad "a long line" '1 0 1 1 0 0 7\n0\n' "line 2: heuristic statement: the line ends where a modifier"
bad "a long line that no statement follows" '1 0 1 1 0 0 x\n0\n' "line 2: rule: \`x\` where the end of the line"
bad "CRLF" '1 0 1 1 0 0\r\n0\n' "line 2: rule: carriage return" "tr -d"
bad "a word" '1 0 1 x 0 0\n0\n' "line 2: rule: \`x\` where an atom"
bad "a word behind a number" '1 0 1 1x 0 0\n0\n' "line 2: rule: \`1x\` where an atom"
bad "a statement that is none" '11 0\n0\n' "line 2: statement: \`11\` where its kind (0 to 10)"
bad "an empty line" '\n0\n' "line 2: statement: the line ends"
bad "atom 0" '1 0 1 0 0 0\n0\n' "line 2: rule: \`0\` where an atom (1 to 2147483647)"
bad "literal 0" '1 0 1 1 0 1 0\n0\n' "line 2: rule: \`0\` where a literal"
bad "a negative head" '1 0 1 -1 0 0\n0\n' "line 2: rule: \`-1\` where an atom"
bad "a large atom" '1 0 1 2147483648 0 0\n0\n' "line 2: rule: \`2147483648\` where an atom"
bad "a huge number" '1 0 1 99999999999999999999999 0 0\n0\n' "line 2: rule: \`99999999999999999999\` where an atom"
bad "a huge count" '1 0 4294967295 1 0 0\n0\n' "line 2: rule: "
bad "a count too large" '1 0 4294967296 1 0 0\n0\n' "line 2: rule: \`4294967296\` where a count"
bad "a zero byte" '1 0 1 1 \0000 0\n0\n' "line 2: rule: a zero byte where the body's type"
bad "a head of type 2" '1 2 1 1 0 0\n0\n' "line 2: rule: \`2\` where the head's type"
bad "a body of type 2" '1 0 1 1 2 0\n0\n' "line 2: rule: \`2\` where the body's type"
bad "a negative weight" '1 0 1 1 1 1 2 2 1 3 -1\n0\n' "line 2: rule: \`-1\` where a weight (0 to 2147483647)"
bad "a weight body without a bound" '1 0 1 1 1\n0\n' "line 2: rule: the line ends where a bound"
bad "a weight body without weights" '1 0 1 1 1 1 1 2\n0\n' "line 2: rule: the line ends where a weight"
bad "an external without a value" '5 1\n0\n' "line 2: external statement: the line ends where a value"
bad "an external of no value" '5 1 4\n0\n' "line 2: external statement: \`4\` where a value (0 to 3)"
bad "an external that a rule derives" '5 2 0\n1 1 1 1 0 0\n1 0 1 2 0 1 1\n0\n' "line 4: rule: it derives the external atom 2" "--pass-through"
bad "a theory statement of no type" '9 7 1 5\n0\n' "line 2: theory statement: \`7\` where a theory statement's type"
bad "a theory statement of type 3" '9 3 1 5\n0\n' "line 2: theory statement: there is no type 3"
bad "a symbol too long" '9 1 0 9 abc\n0\n' "line 2: theory statement: the input ends inside the name"
bad "a symbol too short" '9 1 0 1 abc\n0\n' "line 2: theory statement: \`bc\` where a space" "in bytes"
bad "a theory atom below 0" '9 5 -1 0 0\n0\n' "line 2: theory statement: \`-1\` where an atom, or 0"
bad "a second step" '1 0 1 1 0 0\n0\n1 0 1 2 0 0\n0\n' "line 4: statement after the end" "several steps"
bad "a name too long" '4 50 a 1 1\n0\n' "line 2: output statement: the input ends inside the name"
bad "a name too short" '4 1 abc 1 1\n0\n' "line 2: output statement: \`bc\` where a space" "in bytes"
bad "a name in letters, not bytes" '4 1 ü 1 1\n0\n' "line 2: output statement" "in bytes"
bad "an output without a condition" '4 1 a\n0\n' "line 2: output statement: the line ends where a space"
bad "after a name with a line feed" '4 3 a\nb 1 1\n1 0 x\n0\n' "line 4: rule: \`x\`"
bad "a minimize statement" '2 0 1 1\n0\n' "line 2: minimize statement: the line ends where a weight"
bad "a project statement" '3 1 -1\n0\n' "line 2: project statement: \`-1\` where an atom"
bad "an assume statement" '6 1\n0\n' "line 2: assume statement: the line ends where a literal"
bad "a heuristic statement" '7 6 1 1 1 0\n0\n' "line 2: heuristic statement: \`6\` where a modifier"
bad "an edge statement" '8 1 x 0\n0\n' "line 2: edge statement: \`x\` where a node"
bad "bytes that no terminal should see" '1 0 1 \033[31m 0 0\n0\n' "line 2: rule: \`?[31m\`"

# over the limits: the line of the first rule too many, and --pass-through; the last that may be is taken
atoms() { awk -v n="$1" 'BEGIN { print "asp 1 0 0"; for (i = 1; i <= n; i++) print "1 0 1 " i " 0 1 " i; print "0" }'; }
choices() { awk -v n="$1" 'BEGIN { print "asp 1 0 0"; for (i = 1; i <= n; i++) print "1 1 1 " i " 0 1 -" (i > 1 ? i - 1 : n); print "0" }'; }
guards() { awk -v n="$1" 'BEGIN { print "asp 1 0 0"; for (i = 1; i <= n; i++) print "1 0 1 " i " 1 1 1 " n + 1 " 1"; print "0" }'; }
clauses() { awk -v n="$1" 'BEGIN { print "asp 1 0 0"; for (i = 1; i <= n; i++) print "1 0 0 0 " (i % 2 ? "0" : "1 " i / 2 % 9 + 1); print "0" }'; }
words() { # 20 clauses of 3 + 400 words, one of 3 + n, and the two words in front: 8065 + n
    awk -v n="$1" 'BEGIN {
        print "asp 1 0 0"
        for (i = 1; i <= 21; i++) {
            count = i < 21 ? 400 : n
            printf "1 0 0 0 %d", count
            for (k = 1; k <= count; k++) printf " %d", k
            print ""
        }
        print "0"
    }'
}
# name, as many as may be, how many one more is, the line of the first too many, the limit, what it is of
for limit in atoms:1024:1025:1026:1024:atoms clauses:2048:2049:2050:2048:clauses words:127:8193:22:8192:words \
    choices:512:1026:513:1024:atoms guards:512:1026:514:1024:atoms; do
    IFS=: read -r name most count line number what <<END
$limit
END
    "$name" $((most + 1)) >"$tmp/in"
    refused "too many $name" "" "gambrolt: line $line: rule: " "$count $what, $((count - number)) over the limit of $number" "--pass-through"
    build/gambrolt --pass-through <"$tmp/in" >"$tmp/out" 2>"$tmp/err"
    expect "too many $name: --pass-through" [ $? -eq 0 ]
    expect "too many $name: the program as it came" same "$tmp/in" "$tmp/out"
    expect "too many $name: it says so" grep -q "line $line: rule: .*handed on unreduced" "$tmp/err"
    "$name" "$most" >"$tmp/in"
    build/gambrolt --no-reduce <"$tmp/in" >"$tmp/out" 2>"$tmp/err"
    expect "as many $name as may be" same "$tmp/in" "$tmp/out"
done
{ atoms 1100; clauses 3000; } | sed '/^0/d; 2,$s/^asp.*/10 and/' >"$tmp/in"
echo 0 >>"$tmp/in"
refused "over two limits" "" "1100 atoms, 76 over the limit of 1024; 4100 clauses, 2052 over the limit of 2048; 16002 words, 7810 over"
for given in '1 0 2 1 2 0 1 7\n5 1 0' '1 0 1 1 0 1 -2\n5 1 2\n9 1 0 1 x'; do
    # shellcheck disable=SC2059
    printf "asp 1 0 0\n$given\n0\n" >"$tmp/in"
    build/gambrolt --pass-through --stats=json "--steps=$tmp/list" <"$tmp/in" >"$tmp/out" 2>"$tmp/err"
    expect "--pass-through, what can't be reduced: as it came" same "$tmp/in" "$tmp/out"
    expect "--pass-through, what can't be reduced: a note" grep -q "external atom 1.*handed on unreduced" "$tmp/err"
    expect "--pass-through, what can't be reduced: JSON" grep -qx '{"reduced": false}' "$tmp/err"
    expect "--pass-through, what can't be reduced: no steps" [ "$(cat "$tmp/list")" = steps=0 ]
done
printf 'asp 1 0 0 incremental\n1 1 1 1 0 0\n4 1 a 1 1\n0\n1 0 1 2 0 1 1\n5 3 0\n0\n' >"$tmp/in"
build/gambrolt --pass-through <"$tmp/in" >"$tmp/out" 2>"$tmp/err"
expect "--pass-through, several steps: as it came" same "$tmp/in" "$tmp/out"
expect "--pass-through, several steps: a note" grep -q "line 1: header: .*handed on unreduced" "$tmp/err"
models "$tmp/out" >"$tmp/models"
expect "--pass-through, several steps: the solver takes them" [ "$(grep -c model "$tmp/models")" -eq 6 ]
printf '1 1 1 1 0 0\n' >"$tmp/in"
refused "no aspif with --pass-through" --pass-through "line 1: header"

# the text form
text() {
    what=$1
    # shellcheck disable=SC2059
    printf "$2" >"$tmp/in"
    shift 2
    refused "text: $what" --text "$@"
    refused "text: $what" --from-text "$@"
}
text "empty" '' "line 1: text: " "refused=24,0" "atoms="
text "a blank" 'atoms=2\nclauses=1\nhead=0, 1\npos=\nneg=\n' "line 3: text: " "refused=25,18" "commas"
text "too many atoms" 'atoms=1031\nclauses=0\n' "line 1: text: there are more than 1024 atoms" "refused=2,0" "7 over the limit"
text "too many clauses" 'atoms=2\nclauses=2049\n' "line 2: text: there are more than 2048 clauses" "refused=3,8" "1 over the limit"
words 130 | sed 's/^0$//' | awk 'BEGIN { print "atoms=400\nclauses=21" } NR > 1 && NF { print "head="; printf "pos="; for (i = 6; i <= NF; i++) printf "%s%d", (i > 6 ? "," : ""), $i - 1; print "\nneg=" }' >"$tmp/in"
refused "text: too many words" --text "more than 8192 words (refused=26," "3 over the limit"
sed -i 's/^pos=0,1,/pos=1,0,1,0,/' "$tmp/in"
refused "text: too many words, and repeats" --text "more than 8192 words (refused=26," "3 over the limit"
awk 'BEGIN { for (i = 0; i < 65540; i++) printf "x" }' >"$tmp/in"
refused "text: too many bytes" --text "more than 65536 bytes (refused=22,0)" "4 over the limit"
text "an atom too large" 'atoms=2\nclauses=1\nhead=2\npos=\nneg=\n' "line 3: text: " "refused=6,18" "write atoms below atoms="
text "an atom too large among descending ones" 'atoms=2\nclauses=1\nhead=0\npos=2,1,0\nneg=\n' "line 4: text: " "refused=6,25"
text "an atom too large, again and again" 'atoms=2\nclauses=1\nhead=0\npos=1,0\nneg=9999,0,9999\n' "line 5: text: " "refused=6,33"
text "a last line that is not in form" 'atoms=3\nclauses=2\nhead=1,0\npos=\nneg=\nhead=2,2\npos=1,0\nneg=2,0,\n' "line 8: text: " "refused=25,54"
text "two numbers of atoms" 'atoms=1,1\nclauses=0\n' "line 1: text: " "refused=25,0"
text "a line too many" 'atoms=0\nclauses=0\n\n' "line 3: text: " "refused=27,18"
text "a line too many behind repeats" 'atoms=2\nclauses=1\nhead=1,0\npos=1,1\nneg=\n\n' "line 6: text: " "refused=27,40"
text "CRLF" 'atoms=2\r\nclauses=0\r\n' "line 1: text: " "refused=25,0"
