# usage.sh - options, files and streams: status 2 with one line where the call or the outside is at fault.

# misused WHAT FRAGMENT ARGUMENT..
misused() {
    what=$1 fragment=$2
    shift 2
    build/gambrolt "$@" <examples/document-01.txt >"$tmp/out" 2>"$tmp/err"
    status=$?
    expect "$what: status 2, not $status" [ "$status" -eq 2 ]
    expect "$what: nothing on standard output" [ ! -s "$tmp/out" ]
    expect "$what: one line" [ "$(wc -l <"$tmp/err")" -eq 1 ]
    expect "$what: \`$fragment\` in: $(cat "$tmp/err")" grep -qF -- "$fragment" "$tmp/err"
}
misused "an unknown option" "unknown option: --sats" --sats
misused "a short option" "unknown option: -x" -x
misused "an unknown form of statistics" "unknown option: --stats=xml" --stats=xml
misused "an empty file for sentences" "unknown option: --explain=" --explain=
misused "two files" "more than one file" a b
misused "two outputs" "--to-lp and --to-text" --to-lp --to-text
misused "--text and another form" "--text reads and writes" --text --to-lp
misused "--steps without --text" "--steps goes with --text" --steps
misused "--steps without a file" "unknown option: --steps=" --steps=
misused "statistics without a file" "unknown option: --stats=json:" --stats=json:
misused "-o without a file" "-o takes one file" --text -o
misused "-o twice" "-o takes one file" --text -o "$tmp/x" -o "$tmp/y"
misused "-o where nothing can be written" "cannot write $tmp/none/x" --text -o "$tmp/none/x"
misused "a list where nothing can be written" "cannot write $tmp/none/x" --text "--steps=$tmp/none/x"
misused "statistics where nothing can be written" "cannot write $tmp/none/x" --text "--stats=json:$tmp/none/x"
misused "a list without a reduction" "need a reduction" --text --no-reduce "--steps=$tmp/x"
misused "a check with a report" "--check goes with --text alone" --text --check=x --explain
misused "a check with another form" "--check goes with --text alone" --check=x --to-lp
misused "a check of a missing list" "cannot read $tmp/none" --text "--check=$tmp/none"
misused "sentences without a reduction" "need a reduction" --explain --no-reduce
misused "statistics of a conversion" "need a reduction" --stats --to-text
misused "--pass-through and the text form" "--pass-through goes with aspif" --pass-through --text
misused "names for nothing" "--names goes with --explain" --names=x
misused "a missing file of names" "cannot read $tmp/none" --text --explain "--names=$tmp/none"
misused "a missing file" "cannot read $tmp/none: No such file" "$tmp/none"
misused "a directory" "cannot read $tmp: Is a directory" "$tmp"
misused "a file for sentences that cannot be" "cannot write $tmp/none/x" --text "--explain=$tmp/none/x"

build/gambrolt --text <&- >"$tmp/out" 2>"$tmp/err"
expect "closed standard input: status 2" [ $? -eq 2 ]
build/gambrolt --text examples/document-01.txt >/dev/full 2>"$tmp/err"
expect "a full disk: status 2" [ $? -eq 2 ]
expect "a full disk: it says so" grep -q "cannot write standard output: No space" "$tmp/err"
build/gambrolt --text examples/document-01.txt >&- 2>"$tmp/err"
expect "closed standard output: status 2" [ $? -eq 2 ]
build/gambrolt --help >/dev/full 2>"$tmp/err"
expect "help on a full disk: status 2" [ $? -eq 2 ]
build/gambrolt --text --explain examples/document-01.txt >"$tmp/out" 2>/dev/full
expect "sentences on a full disk: status 2" [ $? -eq 2 ]
expect "sentences on a full disk: no program" [ ! -s "$tmp/out" ]
build/gambrolt --text --stats examples/document-01.txt >"$tmp/out" 2>/dev/full
expect "statistics on a full disk: status 2" [ $? -eq 2 ]
build/gambrolt --text --explain=/dev/full examples/document-01.txt >"$tmp/out" 2>"$tmp/err"
expect "sentences to a full disk: status 2" [ $? -eq 2 ]
build/gambrolt --text --steps=/dev/full examples/document-01.txt >"$tmp/out" 2>"$tmp/err"
expect "a list to a full disk: status 2" [ $? -eq 2 ]
build/gambrolt --text -o /dev/full examples/document-01.txt >"$tmp/out" 2>"$tmp/err"
expect "-o to a full disk: status 2" [ $? -eq 2 ]

# a reader that is gone: silent, as gringo is
awk 'BEGIN { print "asp 1 0 0"; for (i = 1; i < 90000; i++) print "1 0 1 " i " 0 0"; print "0" }' >"$tmp/in"
build/gambrolt <"$tmp/in" 2>"$tmp/err" | head -1 >"$tmp/out"
expect "a reader that is gone: the first line" [ "$(cat "$tmp/out")" = "asp 1 0 0" ]
expect "a reader that is gone: silent" [ ! -s "$tmp/err" ]

build/gambrolt --text -o "$tmp/left" examples/document-01.txt >"$tmp/out" 2>"$tmp/err"
expect "-o: status 0" [ $? -eq 0 ]
expect "-o: nothing on standard output" [ ! -s "$tmp/out" ]
build/gambrolt --text examples/document-01.txt >"$tmp/want"
expect "-o: the program" same "$tmp/want" "$tmp/left"

build/gambrolt --help >"$tmp/help" 2>"$tmp/err"
expect "--help: status 0" [ $? -eq 0 ]
expect "--help: nothing on standard error" [ ! -s "$tmp/err" ]
expect "--help: lines of at most 96 columns" sh -c '! grep -q "^.\{97\}" "$0"' "$tmp/help"
build/gambrolt -h >"$tmp/out"
expect "-h" same "$tmp/help" "$tmp/out"

# one version everywhere: the header's
version=$(sed -n 's/^#define GAMBROLT_VERSION "\(.*\)"$/\1/p' include/gambrolt.h)
expect "the header's version" sh -c 'echo "$0" | grep -qx "[0-9]*\.[0-9]*\.[0-9]*"' "$version"
expect "--version" [ "$(build/gambrolt --version)" = "gambrolt $version" ]
expect "-V" [ "$(build/gambrolt -V)" = "gambrolt $version" ]
expect "the man page's version" grep -q "^\.TH GAMBROLT 1 \"\" \"gambrolt $version\"" shell/gambrolt.1
for option in -o $(grep -o -- '-[-a-zA-Z][-a-z]*' "$tmp/help" | grep -x -e '-[a-zA-Z]' -e '--.*' | sort -u); do
    expect "$option is in the man page" grep -q -- "$(echo "$option" | sed 's/-/\\\\-/g')" shell/gambrolt.1
done
expect "the man page without warnings" sh -c 'groff -man -ww -Tutf8 shell/gambrolt.1 2>&1 >/dev/null | cmp -s - /dev/null'

# a note for those who wait: on a terminal, after a second, once
script -qec "{ sleep 1.6; cat examples/document-01.txt; } | build/gambrolt --text >$tmp/out" /dev/null >"$tmp/note" </dev/null
expect "a note on a terminal" [ "$(grep -c 'gambrolt: waiting' "$tmp/note")" -eq 1 ]
expect "the program all the same" [ -s "$tmp/out" ]
script -qec "build/gambrolt --text examples/document-01.txt >$tmp/out" /dev/null >"$tmp/note" </dev/null
expect "no note within a second" [ ! -s "$tmp/note" ]
{ sleep 1.2; cat examples/document-01.txt; } | build/gambrolt --text >"$tmp/out" 2>"$tmp/err"
expect "no note but on a terminal" [ ! -s "$tmp/err" ]
