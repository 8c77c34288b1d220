#!/bin/sh
# Builds best_path.c with the proved decoder and runs it; the arguments are handed on to it.
set -eu
here=$(dirname "$0")
"$here/build.sh" best_path decoder
exec "$here/../../target/examples/best_path" "$@"
