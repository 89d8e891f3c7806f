#!/bin/sh
# dist.sh VERSION COMPILER.. - build/gambrolt-VERSION-x86_64-linux.tar.gz: the program (linked statically), the library, its
# header, pkg-config file, man page and the proof's verdict, for machines without the toolchain. `make dist` calls it.
set -eu
version=$1
shift
name=gambrolt-$version
dir=build/dist/$name
log=${CI_LOG:-build/ci.log}

rm -rf build/dist
mkdir -p "$dir/bin" "$dir/lib/pkgconfig" "$dir/include" "$dir/share/man/man1" "$dir/share/doc/gambrolt"
"$@" -O2 -static shell/*.c build/lib/libgambrolt.a -o "$dir/bin/gambrolt"
cp build/lib/libgambrolt.a "$dir/lib/"
cp include/gambrolt.h "$dir/include/"
cp shell/gambrolt.1 "$dir/share/man/man1/"
cp examples/c/reduce.c "$dir/share/doc/gambrolt/"
# shellcheck disable=SC2016 # pkg-config fills in where the file lies
sed "s|@PREFIX@|"'${pcfiledir}/../..'"|; s|@VERSION@|$version|" include/gambrolt.pc.in >"$dir/lib/pkgconfig/gambrolt.pc"

# what the proof said of the sources that the library was made of
{
    echo "gambrolt $version"
    if [ ! -f "$log" ]; then
        echo "The proof was not run where this was packed; \`make test\` runs it."
    elif [ -n "$(find crates -mindepth 2 -name out -prune -o -newer "$log" -print | head -1)" ] || [ crates.txt -nt "$log" ]; then
        echo "The proof was not run on these sources, only on earlier ones; \`make test\` runs it."
    else
        echo "The proof's verdict on the sources of the library:"
        tail -n 1 "$log"
    fi
    (cd "$dir" && sha256sum lib/libgambrolt.a bin/gambrolt include/gambrolt.h)
} >"$dir/VERDICT"

tar -C build/dist -czf "build/$name-x86_64-linux.tar.gz" "$name"
echo "build/$name-x86_64-linux.tar.gz"
