#!/bin/sh
# figures.sh EXAMPLE.. - what the reducer changes for the solver: rules, variables, constraints, choices and conflicts of
# `clasp 0` by its own statistics, as they are and as they are behind the reducer. Called from the repository's root.
tmp=$(mktemp -d)
trap 'rm -rf "$tmp"' EXIT
. shell/tests/lib.sh

# of FILE: the five figures
of() {
    clasp 0 --quiet=2 --opt-mode=ignore --stats "$1" | awk '
        /^Choices/ { choices = $3 }
        /^Conflicts/ { conflicts = $3 }
        /^Rules/ { rules = $3; if ($4 == "(Original:") rules = $5 + 0 }
        /^Variables/ { variables = $3 }
        /^Constraints/ { constraints = $3 }
        END { print rules, variables + 0, constraints + 0, choices + 0, conflicts + 0 }'
}

printf '%-16s %6s %13s %11s %13s %11s %11s\n' example steps rules variables constraints choices conflicts
for example; do
    ground "examples/$example.lp" >"$tmp/in"
    build/gambrolt --stats=json <"$tmp/in" >"$tmp/out" 2>"$tmp/stats"
    # shellcheck disable=SC2046
    set -- $(of "$tmp/in") $(of "$tmp/out")
    printf '%-16s %6s %6s %6s %5s %5s %6s %6s %5s %5s %5s %5s\n' "$example" \
        "$(sed -n 's/.*"all": \([0-9]*\),.*/\1/p' "$tmp/stats")" "$1" "$6" "$2" "$7" "$3" "$8" "$4" "$9" "$5" "${10}"
done
