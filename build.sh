#!/usr/bin/env bash
# build.sh [FOLDER]: proves and builds the library and installs it into FOLDER (target/install), where the tests look for it.
set -euo pipefail
unset CDPATH
top=$(cd -- "$(dirname -- "${BASH_SOURCE[0]}")" && pwd)
"$top/scripts/needs" make
folder=$(realpath -m -- "${1:-$top/target/install}")
exec "$top/scripts/make-in" "$folder" install DESTDIR=
