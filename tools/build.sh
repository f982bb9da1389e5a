#!/usr/bin/env bash
# Proves and builds what is named: the programs `table` and `calls`, to target/bin, and the archive for C, `pump`, to target/staticlib.
# usage: tools/build.sh [NAME..], all three where none is named
set -euo pipefail
cd "$(dirname "$0")/.."
[ $# -gt 0 ] || set -- table calls pump
mkdir -p target/bin target/staticlib
for name in "$@"; do
  case $name in
    table | calls)
      (cd "crates/$name" && rt run </dev/null >/dev/null)
      cp "crates/$name/out/$name" target/bin/
      ;;
    pump)
      (cd crates/pump_c && rt lib)
      cp crates/pump_c/out/libpump_c.a target/staticlib/libpump.a
      ;;
    *)
      echo "build: no program or archive $name" >&2
      exit 2
      ;;
  esac
done
