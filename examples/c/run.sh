#!/bin/sh
# Builds run_image.c with the proved library and runs it; the arguments are handed on to it.
set -eu
here=$(dirname "$0")
"$here/build.sh" run_image debugger
exec "$here/../../target/examples/run_image" "$@"
