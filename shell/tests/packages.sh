#!/bin/sh
# packages.sh - installs what the shell's tests call and is missing. `make test-shell` has it done first, from the repository's root.
set -u
tmp=$(mktemp -d)
trap 'rm -rf "$tmp"' EXIT
. shell/tests/lib.sh
need gringo clasp groff:groff-base script:bsdutils
