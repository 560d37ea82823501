#!/bin/sh
# Builds the oracle: the supplied Rust, unchanged, with the glue beside this file. Prints the program's path.
#   tools/oracle/build.sh [SUPPLIED]      SUPPLIED: the folder that holds packages/tcads-core (default ../shared/docs/src)
set -eu
here=$(cd "$(dirname "$0")" && pwd)
exec "$here/over_supplied.sh" oracle "$here" "${1:-$here/../../../shared/docs/src}"
