#!/usr/bin/env bash
# Runs the outside vectors through the compiled programs and compares every answer. Needs `tools/build.sh`.
set -eu
cd "$(dirname "$0")/.."
part=$(mktemp -d)
trap 'rm -rf "$part"' EXIT
failed=0

for program in calls table; do
  if [ ! -x "target/bin/$program" ]; then
    echo "vectors: there is no target/bin/$program; \`tools/build.sh $program\` builds it"
    exit 1
  fi
done

# Lists of calls by document 02 as far as L7, without their answers, all at once.
want=tests/vectors/L7.txt
sed 's/ =.*//' "$want" | target/bin/calls >"$part/got"
if ! cmp -s "$part/got" "$want"; then
  echo "vectors: an answer differs from $want:"
  diff "$want" "$part/got" | head -6
  failed=1
fi
echo "vectors: $(wc -l <"$want") lines of calls compared with $want"

# Map files for the table program. The tables of files/ are written without marks, which are all 0.
files=0
for map in tests/vectors/files/*.map tests/vectors/files5/*.map; do
  target/bin/table <"$map" >"$part/got" 2>"$part/err"
  case $map in
    */files/*) sed '2,$s/$/ 0/' "${map%.map}.out" >"$part/want" ;;
    *) cp "${map%.map}.out" "$part/want" ;;
  esac
  files=$((files + 1))
  if ! cmp -s "$part/got" "$part/want"; then
    echo "vectors: the table program differs on $map"
    failed=1
  fi
  # A line on standard error comes with a refusal alone.
  if [ "$(wc -l <"$part/err")" != "$(grep -c refused "$part/want")" ]; then
    echo "vectors: the table program says on standard error, with $map: $(cat "$part/err")"
    failed=1
  fi
done
echo "vectors: $files map files compared"

# The table program, called the wrong way: with the name of a file, and with bytes that are none.
map=tests/vectors/files5/00000.map
target/bin/table "$map" <"$map" >"$part/out" 2>"$part/err"
head -c 20 "$map" | target/bin/table >>"$part/out" 2>>"$part/err"
printf 'refused 11\n' >"$part/want.out"
cat >"$part/want.err" <<'END'
table: no arguments are taken; use: table < FILE
table: standard input is no map file; use: table < FILE
END
for stream in out err; do
  if ! diff "$part/want.$stream" "$part/$stream"; then
    echo "vectors: the table program, called the wrong way, says something else"
    failed=1
  fi
done
exit $failed
