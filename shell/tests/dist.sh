# dist.sh - the tarball, unpacked where the toolchain is not on the path: the program runs, the example in C compiles
# against it, and what other languages link is there. And the installed files.
version=$(build/gambrolt --version | sed 's/^gambrolt //')
mkdir "$tmp/dist" "$tmp/path"
tar -C "$tmp/dist" -xzf "build/gambrolt-$version-x86_64-linux.tar.gz"
dist=$tmp/dist/gambrolt-$version
for tool in cc gcc as ld sh cat grep sed sha256sum pkg-config; do
    command -v "$tool" >/dev/null && ln -s "$(command -v "$tool")" "$tmp/path/$tool"
done

# there COMMAND..: in the unpacked directory, with nothing but a compiler on the path
there() {
    (cd "$dist" && PATH=$tmp/path "$@")
}
expect "no toolchain on the path" sh -c '! PATH=$0 command -v rt >/dev/null' "$tmp/path"
expect "the packed program's version" [ "$(there bin/gambrolt --version)" = "gambrolt $version" ]
cp examples/document-01.txt "$tmp/in"
there bin/gambrolt --text --steps <"$tmp/in" >"$tmp/out"
build/gambrolt --text --steps <"$tmp/in" >"$tmp/want"
expect "the packed program reduces" same "$tmp/want" "$tmp/out"
expect "the packed program needs no library" sh -c '! ldd "$0" 2>/dev/null | grep -q "=>"' "$dist/bin/gambrolt"
there cc -Iinclude share/doc/gambrolt/reduce.c lib/libgambrolt.a -o reduce
there ./reduce >"$tmp/out"
expect "the example in C against the packed library" same examples/c/reduce.stdout "$tmp/out"
expect "the packed man page" grep -q "gambrolt $version" "$dist/share/man/man1/gambrolt.1"
expect "the packed verdict" sh -c 'grep -q "^The proof" "$0/VERDICT" && cd "$0" && grep -E "^[0-9a-f]{64} " VERDICT | sha256sum -c --status' "$dist"
expect "the verdict is that of the last run" sh -c '[ ! -f build/ci.log ] || grep -qxF "$(tail -n 1 build/ci.log)" "$0" || grep -q "earlier ones" "$0"' "$dist/VERDICT"
expect "the packed pkg-config file" sh -c 'grep -qx "Version: $1" "$0" && grep -qx "prefix=\${pcfiledir}/../.." "$0"' "$dist/lib/pkgconfig/gambrolt.pc" "$version"

# functions for languages that can't read the header
cat >"$tmp/own.c" <<'END'
#include <stdio.h>
extern const char *gambrolt_version(void), *gambrolt_message(unsigned), *gambrolt_kind_name(unsigned);
extern unsigned gambrolt_refusal(unsigned long);
extern unsigned long gambrolt_value(unsigned long), gambrolt_check_table(const unsigned short *, unsigned long);
int main(void)
{
    unsigned short table[] = {2, 1, 1, 0, 0, 2};
    unsigned long answer = gambrolt_check_table(table, 6);
    printf("%s\n%s, place %lu\n", gambrolt_version(), gambrolt_message(gambrolt_refusal(answer)), gambrolt_value(answer));
    for (unsigned kind = 0; kind < 11; kind++)
        printf("%s ", gambrolt_kind_name(kind));
    return 0;
}
END
there cc -Wall -Werror "$tmp/own.c" lib/libgambrolt.a -o own
there ./own >"$tmp/out"
printf '%s\nan atom is not below the number of atoms, place 5\nnone tautology contradiction success no_head blocked failure loop subsumed excluded none ' "$version" >"$tmp/want"
expect "messages without the header" same "$tmp/want" "$tmp/out"

# installed
make --no-print-directory -s install install-shell "DESTDIR=$tmp/installed" PREFIX=/opt/g >"$tmp/out" 2>&1
expect "installed: pkg-config's version and place" sh -c 'grep -qx "Version: $1" "$0" && grep -qx "prefix=/opt/g" "$0"' \
    "$tmp/installed/opt/g/lib/pkgconfig/gambrolt.pc" "$version"
expect "installed: the library with messages" cmp -s build/lib/libgambrolt.a "$tmp/installed/opt/g/lib/libgambrolt.a"
expect "installed: the program" [ "$("$tmp/installed/opt/g/bin/gambrolt" -V)" = "gambrolt $version" ]
