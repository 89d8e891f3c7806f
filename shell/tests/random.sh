# random.sh - random small ground programs, through the grounder and without it: the same stable models reduced or not.

# random_lp SEED: rules over ten atoms, most atoms derivable, facts and constraints rare.
random_lp() {
    awk -v seed="$1" '
        function draw(n) { state = (16807 * state) % 2147483647; return int(state / 7) % n }
        function atom() { return substr("abcdefghij", 1 + draw(10), 1) }
        BEGIN {
            state = seed * 7919 + 17
            for (i = 0; i < 20; i++) draw(2)
            rules = 4 + draw(16)
            for (i = 0; i < rules; i++) {
                heads = draw(12); heads = heads == 0 ? 0 : heads < 9 ? 1 : 2
                body = draw(4)
                line = heads > 0 ? atom() : ""
                if (heads == 2) line = line " | " atom()
                if (heads == 0 && body == 0) body = 1
                for (k = 0; k < body; k++) line = line (k ? ", " : " :- ") (draw(2) ? "not " : "") atom()
                print line "."
            }
        }'
}

# random_aspif SEED: the same without the grounder, with repeats, names, choices, weight bodies, externals, theory atoms and
# statements that are carried. Two atoms more than the rules derive are external or a theory's.
random_aspif() {
    awk -v seed="$1" '
        function draw(n) { state = (16807 * state) % 2147483647; return int(state / 7) % n }
        function literal() { return (draw(2) ? "-" : "") 3 * (1 + draw(atoms + 2 * ordinary)) }
        function body(line, least, most,   n, k, weights) {
            n = least + draw(most - least); weights = ordinary && draw(5) == 0
            line = line (weights ? " 1 " draw(2 + n) " " : " 0 ") n
            for (k = 0; k < n; k++) line = line " " literal() (weights ? " " draw(3) : "")
            return line
        }
        BEGIN {
            state = seed * 7919 + 29
            for (i = 0; i < 20; i++) draw(2)
            atoms = 2 + draw(7); rules = 1 + draw(18); ordinary = draw(3) > 0
            print "asp 1 0 0"
            for (i = 1; i <= atoms + 2; i++) if (draw(2)) print "4 2 p" i % 10 " 1 " 3 * i
            if (ordinary && draw(2)) print "5 " 3 * (atoms + 1) " " draw(4)
            for (i = 0; i < rules; i++) {
                heads = draw(12); heads = heads == 0 ? 0 : heads < 8 ? 1 : heads - 6 > 3 ? 3 : heads - 6
                choice = ordinary && draw(2)
                line = "1 " choice " " heads
                for (k = 0; k < heads; k++) line = line " " 3 * (1 + draw(atoms))
                print body(line, heads == 0, choice ? 3 : 5)
            }
            for (i = 1; i <= atoms + 2; i++) print "4 2 q" i % 10 " 2 " 3 * i " " 3 * i
            if (ordinary && draw(2)) print "5 " 3 * (atoms + 2) " " draw(4)
            if (ordinary && draw(3) == 0) print "9 1 0 2 go\n9 5 " 3 * (1 + draw(atoms + 2)) " 0 0"
            if (draw(3) == 0) print "8 0 1 1 3\n8 1 0 1 -6"
            if (draw(4) == 0) print "6 1 -3"
            if (draw(3) == 0) print "2 0 2 3 1 6 -2"
            print "0"
        }'
}

# compare WHAT: the program in $tmp/in and its reduction
compare() {
    build/gambrolt <"$tmp/in" >"$tmp/out" 2>"$tmp/err"
    expect "$1: status 0: $(cat "$tmp/err")" [ -s "$tmp/out" ]
    models "$tmp/in" --opt-mode=ignore >"$tmp/models"
    models "$tmp/out" --opt-mode=ignore >"$tmp/reduced"
    expect "$1: an answer" grep -q SATISFIABLE "$tmp/models"
    expect "$1: the same stable models" same "$tmp/models" "$tmp/reduced"
    grep -c model <"$tmp/models" >>"$tmp/counts"
    [ "$(grep -c '^1 ' "$tmp/in")" -eq "$(grep -c '^1 ' "$tmp/out")" ] || echo changed >>"$tmp/counts"
    grep -q '^1 1 ' "$tmp/out" && echo choice >>"$tmp/counts"
    grep -q '^[59] ' "$tmp/out" && echo outside >>"$tmp/counts"
}

: >"$tmp/counts"
seed=1
while [ "$seed" -le "${RANDOM_PROGRAMS:-150}" ]; do
    random_lp "$seed" | gringo --keep-facts >"$tmp/in" 2>/dev/null
    compare "random program $seed"
    random_aspif "$seed" >"$tmp/in"
    compare "random aspif $seed"
    if [ $((seed % 3)) -eq 0 ] && ! grep -q '^9 ' "$tmp/in"; then
        build/gambrolt --to-lp <"$tmp/in" 2>/dev/null | gringo 2>/dev/null >"$tmp/out"
        models "$tmp/out" --opt-mode=ignore >"$tmp/reduced"
        expect "random aspif $seed: the same stable models from ground rules" same "$tmp/models" "$tmp/reduced"
    fi
    seed=$((seed + 1))
done
expect "most random programs lose rules" [ "$(grep -c changed "$tmp/counts")" -gt "$seed" ]
expect "a sixth of them have choices" [ "$(grep -c choice "$tmp/counts")" -gt $((seed / 3)) ]
expect "a sixth of them have atoms set from outside" [ "$(grep -c outside "$tmp/counts")" -gt $((seed / 3)) ]
expect "random programs with several models" grep -q '^[2-9]' "$tmp/counts"
expect "random programs without a model" grep -qx 0 "$tmp/counts"
