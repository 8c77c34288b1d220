#!/bin/sh
# Builds target/stepping/run_image from run_image.c and target/stepping/libdebugger.a: the proved library, compiled without
# optimisation, in which a debugger stops at every function by its name. Only the kit's own compiler has a switch for that.
set -eu
cd "$(dirname "$0")/../.."
mkdir -p target/stepping
(cd crates/debugger_c && rt lib --backend rattle --opt-level 0) >&2
mv crates/debugger_c/out/libdebugger_c.a target/stepping/libdebugger.a
if ! grep -q word::reverse::swap_halves target/stepping/libdebugger.a; then
    echo "stepping.sh: the library is optimised, so that a debugger does not stop at each function" >&2
    exit 1
fi
${CC:-cc} -std=c11 -Wall -Wextra -Werror -g -I include examples/c/run_image.c target/stepping/libdebugger.a \
    -o target/stepping/run_image
