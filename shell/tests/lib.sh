# lib.sh - what the shell's tests share. Sourced from the repository's root.

# need TOOL[:PACKAGE]..: what the tests call, from Debian's packages where it is missing. A tool that can't be had ends the
# tests with a line that says so.
need() {
    for tool; do
        package=${tool#*:} tool=${tool%:*}
        command -v "$tool" >/dev/null && continue
        echo "installing $package"
        { apt-get update && apt-get install -y "$package"; } >"$tmp/apt" 2>&1 || :
        command -v "$tool" >/dev/null && continue
        tail -5 "$tmp/apt" >&2
        echo "shell: FAILED: $tool is missing, and Debian's package $package can't be installed; nothing was tested" >&2
        exit 1
    done
}

tested=0
failed=0

# expect WHAT COMMAND..: the command must succeed.
expect() {
    expected=$1
    shift
    tested=$((tested + 1))
    "$@" || { failed=$((failed + 1)); echo "FAILED: $expected" >&2; }
}

# same FILE FILE: equal, else the first difference is shown.
same() {
    cmp -s "$1" "$2" || { diff "$1" "$2" | head -5 >&2; return 1; }
}

# models FILE OPTION..: the stable models of an aspif file by name, as a sorted list of sorted lists; a name may hold blanks.
models() {
    file=$1
    shift
    clasp 0 --out-ifs='|' "$@" "$file" 2>&1 | awk '
        /^Answer:/ {
            if ((getline line) <= 0) line = ""
            n = split(line, name, "|")
            for (i = 2; i <= n; i++) {
                x = name[i]
                for (j = i - 1; j > 0 && name[j] > x; j--) name[j + 1] = name[j]
                name[j + 1] = x
            }
            out = "model"
            for (i = 1; i <= n; i++) out = out "|" name[i]
            print out
        }
        /^(UN)?SATISFIABLE|^OPTIMUM|ERROR/ { print }' | sort
}

# ground FILE: aspif of an example, with the options that its comments name.
ground() {
    # shellcheck disable=SC2046
    gringo $(sed -n 's/^% ground with: gringo //p' "$1") "$1" 2>/dev/null
}
