#!/bin/sh
# run.sh - the tests of the program `gambrolt`, with the real grounder and the real solver. `make test-shell` builds and
# installs what they need and calls this from the repository's root.
set -u
tmp=$(mktemp -d)
trap 'rm -rf "$tmp"' EXIT
. shell/tests/lib.sh

for part in builder refusals usage selfcheck forms ordinary faults certificate examples random models excluded damaged dist page; do
    . "shell/tests/$part.sh"
done

if [ "$failed" -gt 0 ]; then
    echo "shell: $failed of $tested checks failed" >&2
    exit 1
fi
echo "shell: $tested checks passed"
