#!/bin/sh
# Builds check_calls.c and check_decoder.c, each with its proved library, and runs them: they test the calls from C.
set -eu
here=$(dirname "$0")
"$here/build.sh" check_calls debugger
"$here/build.sh" check_decoder decoder
"$here/../../target/examples/check_calls"
exec "$here/../../target/examples/check_decoder"
