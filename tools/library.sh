#!/bin/sh
# library.sh NAME: builds target/staticlib/libNAME.a, the proved calls of NAME, which is debugger or decoder, where they have
# changed since the last build. The crate NAME_c exports them; the code runs on every x86-64.
set -eu
cd "$(dirname "$0")/.."
library=target/staticlib/lib$1.a

# The kit that the library was built with; as old as that build's start, so that what is edited meanwhile counts as changed.
kit=target/staticlib/$1.kit

# Whether what the library is proved and built from has changed.
crates_changed() {
    crates=
    for crate in "$1_c" $(sed -n "s/^$1_c staticlib://p" crates.txt); do
        crates="$crates crates/$crate/*"
    done
    # shellcheck disable=SC2086 # what a check or a build keeps in a crate's out/ is not looked at
    [ -n "$(find crates.txt $crates \( -name must-fail -o -name out \) -prune -o -newer "$kit" -print)" ]
}

if [ ! -e "$library" ] || [ ! -e "$kit" ] || [ "$(cat "$kit")" != "$(rt version)" ] || crates_changed "$1"; then
    mkdir -p target/staticlib
    rt version >"$kit.new"
    (cd "crates/$1_c" && rt lib --cpu x86-64) >&2
    cp "crates/$1_c/out/lib$1_c.a" "$library"
    mv "$kit.new" "$kit"
fi
