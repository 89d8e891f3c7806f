# page.sh - docs/PIPELINE.md: every command that it shows gives the lines that it shows. A block that depends on the
# grounder's numbering or the solver's search names their versions behind ```console; with others it is run, not compared.
awk -v dir="$tmp" '
    /^```console/ { block++; print substr($0, 12) >(dir "/page." block ".versions"); next }
    /^```$/ { in_block = 0; next }
    block && !begun[block] && /^\$ / { begun[block] = in_block = 1; print substr($0, 3) >(dir "/page." block ".sh"); next }
    in_block { print >(dir "/page." block ".want") }
    END { print block > (dir "/page.count") }' docs/PIPELINE.md
here="gringo-$(gringo --version | awk '{ print $3; exit }') clasp-$(clasp --version | awk '{ print $3; exit }')"
blocks=$(cat "$tmp/page.count")
expect "the page shows commands" [ "${blocks:-0}" -gt 3 ]
block=1
while [ "$block" -le "${blocks:-0}" ]; do
    touch "$tmp/page.$block.want"
    PATH="$PWD/build:$PATH" sh "$tmp/page.$block.sh" >"$tmp/page.$block.out" 2>&1
    status=$?
    other=
    for version in $(cat "$tmp/page.$block.versions"); do
        case " $here " in *" $version "*) ;; *) other=$version ;; esac
    done
    if [ -z "$other" ]; then
        expect "PIPELINE.md: $(cat "$tmp/page.$block.sh")" same "$tmp/page.$block.want" "$tmp/page.$block.out"
    else
        echo "SKIPPED: not compared, as this is not $other, but $here: $(cat "$tmp/page.$block.sh")"
        expect "PIPELINE.md: status 0 or 1: $(cat "$tmp/page.$block.sh")" [ "$status" -lt 2 ]
    fi
    block=$((block + 1))
done
