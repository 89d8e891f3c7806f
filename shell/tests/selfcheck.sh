# selfcheck.sh - a reducer that says what is not so: the program must notice and write nothing.
cp shell/tests/data/kinds.aspif "$tmp/in"
build/lying <"$tmp/in" >"$tmp/out" 2>"$tmp/err"
expect "no lie: status 0" [ $? -eq 0 ]
for lie in "one step too many" "one step too few" "a wrong kind" "a mark more" "no marks" "countless steps" "refused"; do
    case $lie in
        refused) part="the reducer refuses" ;;
        "one step too many" | "a wrong kind") part="the checker refuses" ;;
        "countless steps") part="count of steps" ;;
        *) part="different marks" ;;
    esac
    for options in "" "--stats --explain=$tmp/explained" --to-lp --models; do
        rm -f "$tmp/explained"
        # shellcheck disable=SC2086
        LIE=$lie build/lying $options <"$tmp/in" >"$tmp/out" 2>"$tmp/err"
        expect "$lie: status 1" [ $? -eq 1 ]
        expect "$lie: nothing is written" [ ! -s "$tmp/out" ]
        expect "$lie: no sentences are written" [ ! -e "$tmp/explained" ]
        expect "$lie: $(cat "$tmp/err")" sh -c '[ $(wc -l <"$0") -eq 1 ] && grep -q "^gambrolt: self-check: .*$1" "$0"' "$tmp/err" "$part"
    done
done
