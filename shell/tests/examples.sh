# examples.sh - every example through grounder, reducer and solver: the same stable models by name, however it is written.

# fit GIVEN LEFT SENTENCES: the first sentence about a clause quotes that rule of GIVEN, or one atom of it where it is a
# choice; none is about a clause that is deleted already; LEFT has exactly the rules that no sentence deletes, shorter
# where one drops a condition or a head atom, and choices of exactly those atoms that none deletes or drops.
fit() {
    awk '
        function choice(rule) { return substr(rule, 1, 1) == "{" }
        function body(rule) { sub(/^[^}]*}/, "", rule); return rule }
        function atoms(rule, list) { sub(/^{/, "", rule); sub(/}.*/, "", rule); return split(rule, list, "; ") }
        # what goes with an atom that can not be: the clauses that a sentence names behind it
        function with_it(sentence,   atom, pieces, piece, count, number, i, k) {
            atom = sentence; sub(/^[^`]*`[^`]*`: `/, "", atom); sub(/`.*/, "", atom)
            sub(/.*` can.t be[^;]*/, "", sentence)
            if (sentence ~ / and [0-9]+ more/) { print "too many to follow: " sentence; bad = 1 }
            pieces = split(sentence, piece, "; ")
            for (i = 2; i <= pieces; i++) {
                count = piece[i]; sub(/^[^0-9]*/, "", count); count = split(count, number, ", ")
                for (k = 1; k <= count; k++) goes(number[k] + 0, piece[i], atom)
            }
        }
        function goes(clause, how, atom,   a) {
            if (choice(rule[clause]))
                for (a = atoms(rule[clause], list); a > 0; a--) {
                    if (how ~ /^deleted/ || (how ~ /head/ && list[a] == atom)) deleted[clause " " list[a]] = 1
                    met[clause " " list[a]] = 1
                }
            else if (how ~ /^deleted/) deleted[clause] = 1
            else dropped[clause] = 1
            met[clause] = 1
        }
        FNR == 1 { file++; rules = 1 }
        rules && /^#show\.$/ { rules = 0 }
        file == 1 && rules { rule[n++] = $0 }
        file == 2 && rules && choice($0) { for (i = atoms($0, list); i > 0; i--) chosen[list[i]] = 1 }
        file == 2 && rules && !choice($0) { left[kept++] = $0 }
        file == 3 {
            number = $2 + 0
            quoted = $0; sub(/^[^`]*`/, "", quoted); sub(/`.*/, "", quoted)
            key = number
            fits = quoted == rule[number]
            if (choice(rule[number])) {
                atoms(quoted, list); key = number " " list[1]
                fits = body(quoted) == body(rule[number]) && index(rule[number], list[1])
            }
            if (!(key in met) && !fits && quoted !~ / \.\. and [0-9]+ more\.$/) { print "not the rule: " $0; bad = 1 }
            if (key in deleted) { print "deleted already: " $0; bad = 1 }
            met[key] = 1
            if (/`: deleted, since /) deleted[key] = 1
            else if (/`: dropped `/) dropped[key] = 1
            else if (/`: `.*` can.t be[;,]/) with_it($0)
            else { print "neither: " $0; bad = 1 }
        }
        END {
            for (i = k = 0; i < n; i++) {
                for (a = choice(rule[i]) ? atoms(rule[i], list) : 0; a > 0; a--)
                    if (!((i " " list[a]) in deleted)) expected[list[a]] = 1
                if (choice(rule[i]) || i in deleted) continue
                same = rule[i] == left[k]
                shorter = length(left[k]) < length(rule[i])
                if ((i in dropped) ? !shorter : !same) { print "left: " left[k] " of: " rule[i]; bad = 1 }
                k++
            }
            for (a in expected) if (!(a in chosen)) { print "no choice of: " a; bad = 1 }
            for (a in chosen) if (!(a in expected)) { print "a choice of: " a; bad = 1 }
            if (k != kept) { print "rules left: " kept " not " k; bad = 1 }
            exit bad
        }' "$1" "$2" "$3" >&2
}

# through_rules NAME OPTION..: the same stable models, and the same optima, from the ground rules that --to-lp writes.
through_rules() {
    what=$1
    shift
    build/gambrolt --to-lp "$@" <"$tmp/in" 2>"$tmp/err" | gringo 2>/dev/null >"$tmp/out"
    models "$tmp/out" --opt-mode=ignore >"$tmp/reduced"
    expect "$what" same "$tmp/models" "$tmp/reduced"
    if grep -q '^2 ' "$tmp/in"; then
        models "$tmp/out" --opt-mode=optN --quiet=1 >"$tmp/reduced"
        expect "$what: the same best models" same "$tmp/best" "$tmp/reduced"
    fi
    if grep -q '^3 ' "$tmp/in"; then
        models "$tmp/out" --opt-mode=ignore --project >"$tmp/reduced"
        expect "$what: the same projected models" [ "$(grep -c model "$tmp/reduced")" -eq "$(grep -c model "$tmp/projected")" ]
    fi
}
# cyclic FILE: true where the solver, which follows Fages, does not call the program tight
cyclic() {
    clasp 1 --quiet=2 --opt-mode=ignore --stats --eq=0 "$1" | awk '$1 == "Tight" { print $3 == "No" ? "true" : "false" }'
}
: >"$tmp/kinds"
wide=0
named=0
ordinary=0
weighted=0
cycles=0
broken=0
for example in examples/*.lp examples/ordinary/*.lp; do
    name=${example#examples/}
    ground "$example" >"$tmp/in"
    expect "$name: grounds" [ -s "$tmp/in" ]
    build/gambrolt "--explain=$tmp/sentences" "--stats=json:$tmp/stats" "--steps=$tmp/list" <"$tmp/in" >"$tmp/out" 2>"$tmp/err"
    expect "$name: status 0" [ $? -eq 0 ]
    expect "$name: nothing to note" [ ! -s "$tmp/err" ]
    grep -q '^1 1 ' "$tmp/in" && ordinary=$((ordinary + 1))
    models "$tmp/in" --opt-mode=ignore >"$tmp/models"
    models "$tmp/out" --opt-mode=ignore >"$tmp/reduced"
    expect "$name: an answer" grep -q SATISFIABLE "$tmp/models"
    expect "$name: the same stable models" same "$tmp/models" "$tmp/reduced"
    if grep -q '^2 ' "$tmp/in"; then
        models "$tmp/in" --opt-mode=optN --quiet=1 >"$tmp/best"
        models "$tmp/out" --opt-mode=optN --quiet=1 >"$tmp/reduced"
        expect "$name: an optimum" sh -c 'grep -q "^UNSAT" "$0" || { grep -q OPTIMUM "$0" && grep -q "^model" "$0"; }' "$tmp/best"
        expect "$name: the same best models" same "$tmp/best" "$tmp/reduced"
    fi
    if grep -q '^3 ' "$tmp/in"; then
        models "$tmp/in" --opt-mode=ignore --project >"$tmp/projected"
        models "$tmp/out" --opt-mode=ignore --project >"$tmp/reduced"
        expect "$name: the same projected models" [ "$(grep -c model "$tmp/reduced")" -eq "$(grep -c model "$tmp/projected")" ]
    fi
    if awk 'NF > 259 && $1 == 1 { wide = 1 } END { exit !wide }' "$tmp/in"; then
        wide=$((wide + 1))
    fi

    steps=$(sed -n 's/.*"all": \([0-9]*\),.*/\1/p' "$tmp/stats")
    expect "$name: a sentence for each step at a rule" \
        [ "$(wc -l <"$tmp/sentences")" -eq $((steps - $(grep -c '"rule": null' "$tmp/stats"))) ]
    expect "$name: the list is accepted" sh -c 'build/gambrolt "--check=$1" <"$0" | grep -q "^yes: .* $2 steps"' "$tmp/in" "$tmp/list" "$steps"
    grep '"steps"' "$tmp/stats" >>"$tmp/kinds"
    if grep -q '"carried": 0,' "$tmp/stats"; then # before the reduction the solver may take a cycle away by itself
        cycle=$(sed -n 's/^ "positive_cycle": {"before": \(.*\), "after": \(.*\)},$/\1 \2/p' "$tmp/stats")
        left=$(cyclic "$tmp/out")
        expect "$name: a positive cycle is left where the solver has one, and nowhere else" [ "${cycle#* }" = "$left" ]
        expect "$name: a positive cycle before where the solver has one" sh -c '[ "$0" = true ] || [ "$1" = false ]' "${cycle% *}" "$(cyclic "$tmp/in")"
        [ "$left" = true ] && cycles=$((cycles + 1))
        [ "$cycle" = "true false" ] && broken=$((broken + 1))
    fi
    for carried in 2 3 4 5 6 7 8 9 10; do
        grep "^$carried " "$tmp/in" >"$tmp/before"
        grep "^$carried " "$tmp/out" >"$tmp/after"
        expect "$name: statements $carried as they came" same "$tmp/before" "$tmp/after"
    done
    awk '$1 == 1 && $(4 + $3) == 1' "$tmp/in" >"$tmp/before"
    awk '$1 == 1 && $(4 + $3) == 1' "$tmp/out" >"$tmp/after"
    expect "$name: weight bodies as they came" same "$tmp/before" "$tmp/after"
    [ -s "$tmp/before" ] && weighted=$((weighted + 1))
    build/gambrolt <"$tmp/out" >"$tmp/twice"
    expect "$name: nothing is left to reduce" same "$tmp/out" "$tmp/twice"
    build/sanitized/gambrolt --explain --stats --dry-run <"$tmp/in" 2>"$tmp/err"
    expect "$name: clean under the sanitizers" [ $? -eq 0 ]

    build/gambrolt --no-reduce <"$tmp/in" >"$tmp/out"
    models "$tmp/out" --opt-mode=ignore >"$tmp/reduced"
    expect "$name: the same models unreduced" same "$tmp/models" "$tmp/reduced"
    if ! grep -q '^9 ' "$tmp/in"; then # without theories, which readable rules don't have
        build/gambrolt --to-lp --no-reduce <"$tmp/in" >"$tmp/given"
        build/gambrolt --to-lp <"$tmp/in" >"$tmp/left"
        expect "$name: sentences fit the rules" fit "$tmp/given" "$tmp/left" "$tmp/sentences"
        through_rules "$name: the same models from ground rules"
        through_rules "$name: the same models from ground rules unreduced" --no-reduce
        # the same with the names of the ground rules
        # shellcheck disable=SC2046
        gringo --text $(sed -n 's/^% ground with: gringo //p' "$example") "$example" >"$tmp/text" 2>/dev/null
        through_rules "$name: the same models from ground rules with all names" "--names=$tmp/text"
        [ -s "$tmp/err" ] || named=$((named + 1))
    fi
    cat "$tmp/sentences" "$tmp/stats" "$tmp/twice" "$tmp/left" >"$tmp/all" # those of choices are from 2^31 up, of guards from 3 * 2^30
    expect "$name: no atom of the table's own is told" sh -c '! grep -qE "(^|[^0-9])(2147483[6-9]|214748[4-9]|322122[5-9])" "$0"' "$tmp/all"
    if [ -s "$tmp/before" ] || grep -q '^1 1 \|^[59] ' "$tmp/in"; then # the text form has none of these
        build/gambrolt --to-text <"$tmp/in" >"$tmp/text" 2>"$tmp/err"
        expect "$name: --to-text refuses" sh -c '[ "$1" -eq 1 ] && grep -q "the text form has none" "$0"' "$tmp/err" $?
        continue
    fi

    # as text: the same number of models, reduced or not, and the same steps
    build/gambrolt --to-text <"$tmp/in" >"$tmp/text"
    build/gambrolt --from-text <"$tmp/text" >"$tmp/out"
    if ! grep -q '^[68] ' "$tmp/in"; then # without statements that only aspif has
        models "$tmp/out" | grep -c model >"$tmp/reduced"
        grep -c model <"$tmp/models" >"$tmp/count"
        expect "$name: as many models by text" same "$tmp/count" "$tmp/reduced"
    fi
    build/gambrolt --text --steps <"$tmp/text" | sed -n 's/^steps=//p' >"$tmp/count"
    expect "$name: as many steps by text" [ "$(cat "$tmp/count")" = "$steps" ]
done
for kind in tautology contradiction success no_head blocked failure loop subsumed excluded; do
    expect "some example has a step of the kind: $kind" grep -q "\"$kind\": [1-9]" "$tmp/kinds"
done
expect "an example has clauses of more than 255 conditions" [ "$wide" -gt 0 ]
expect "some examples keep a positive cycle" [ "$cycles" -gt 3 ]
expect "some examples lose one" [ "$broken" -gt 3 ]
expect "most examples fit their ground rules" [ "$named" -gt 45 ]
expect "twenty examples have choices" [ "$ordinary" -ge 20 ]
expect "ten examples have weight bodies" [ "$weighted" -ge 10 ]

for example in examples/*.txt; do
    name=${example#examples/}
    build/gambrolt --from-text "$example" >"$tmp/in"
    build/gambrolt <"$tmp/in" >"$tmp/out"
    models "$tmp/in" >"$tmp/models"
    models "$tmp/out" >"$tmp/reduced"
    expect "$name: the same stable models" same "$tmp/models" "$tmp/reduced"
    build/gambrolt --text "$example" >"$tmp/text"
    build/gambrolt --from-text "$tmp/text" >"$tmp/out"
    models "$tmp/out" >"$tmp/reduced"
    expect "$name: the same stable models by text" same "$tmp/models" "$tmp/reduced"
done
