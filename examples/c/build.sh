#!/bin/sh
# build.sh NAME LIBRARY: builds target/examples/NAME from NAME.c and a proved library, which is debugger or decoder, where they
# have changed since the last build.
set -eu
cd "$(dirname "$0")/../.."
library=target/staticlib/lib$2.a
program=target/examples/$1
tools/library.sh "$2"

source=examples/c/$1.c
if [ ! -e "$program" ] || [ -n "$(find "$source" include/ts201.h "$library" examples/c/build.sh -newer "$program")" ]; then
    mkdir -p target/examples
    ${CC:-cc} -std=c11 -Wall -Wextra -Werror -O2 -I include "$source" "$library" -pthread -o "$program"
fi
