#!/usr/bin/env bash
# The Rust crate: its tests, doc tests, layout and lints; its examples held to the evaluator; what a refusal shows
# where main returns it; and where the archive is looked for.
#
# Run as: tests/hands/rust.sh, once target/staticlib/libkiln.a is built
set -euo pipefail
cd "$(dirname "${BASH_SOURCE[0]}")/../.."

root=$PWD
archive=$root/target/staticlib/libkiln.a
room=$root/target/hands/rust
log=$room/log
rm -rf "$room"
mkdir -p "$room"
unset KILN_LIB_DIR

fail() {
  echo "hands: the Rust crate: $1" >&2
  if [ -n "${2-}" ]; then cat "$2" >&2; fi
  exit 1
}

for tool in python3 gcc ar nm cargo; do
  command -v "$tool" >/dev/null || fail "$tool is not on this machine"
done
[ -f "$archive" ] || fail "$archive is not there"

# cargo in the crate's folder; everything that it says goes to the log.
in_crate() (
  cd "$root/rust"
  CARGO_TARGET_DIR=../target/cargo cargo "$@" >"$log" 2>&1
)

# How many tests passed between two lines of the log.
passed() {
  sed -n "$1"' s/^test result: ok\. \([0-9]*\) passed.*/\1/p' "$log" | awk '{ n += $1 } END { print n + 0 }'
}

# The raw calls take nothing from the files above them, and no other file may have unsafe code.
if grep -rn 'crate::' rust/src/ffi.rs rust/src/ffi; then fail "ffi.rs uses another file"; fi
[ "$(grep -rl 'allow(unsafe_code)' rust/src)" = rust/src/ffi.rs ] || fail "another file allows unsafe code"
[ "$(grep -rlw unsafe rust/src)" = rust/src/ffi.rs ] || fail "another file has unsafe code"
grep -q '^#!\[deny(unsafe_code)\]' rust/src/lib.rs || fail "unsafe code is not denied"

in_crate test --offline --locked || fail "a test fails" "$log"
tests=$(passed '1,/Doc-tests/')
doc_tests=$(passed '/Doc-tests/,$')
[ "$tests" -gt 0 ] || fail "no test ran" "$log"
[ "$doc_tests" -gt 0 ] || fail "no doc test ran" "$log"

# A machine may have cargo alone.
layout="not asked for its layout"
if cargo fmt --version >/dev/null 2>&1; then
  in_crate fmt --check || fail "cargo fmt would change it" "$log"
  layout="laid out"
fi
lints="not asked for lints"
if cargo clippy --version >/dev/null 2>&1; then
  in_crate clippy --offline --locked --all-targets -- -D warnings || fail "clippy finds something" "$log"
  lints="clean for clippy"
fi

# The examples, run in a folder that has nothing to do with them. Where one is refused, main shows the number and
# document 01's words, and ends with 1.
in_crate build --offline --locked --examples || fail "an example does not build" "$log"
examples=$root/target/cargo/debug/examples
head -c 100 tables/kiln-refined-near-top-heat.table >"$room/cut.table"
python3 tests/hands/counted.py tables/kiln-unrefined.table "$room/without-counts.table" "$room/miscounted.table"
mkdir "$room/noted"
python3 tests/hands/noted.py tables/kiln-unrefined-counted.table "$room/noted"
files=("$root"/tables/*.table "$room/cut.table" "$room/without-counts.table" "$room/miscounted.table"
  "$room"/noted/*.table)
declare -A words=([6]="point off the sheet" [12]="file ends inside a head or body" [14]="field length wrong"
  [15]="bytes after the last field" [20]="count in a file differs from the tree's")
declare -A seen=()

# Runs an example, which must print what a file has but for the refusal there, which main shows.
example() {
  local expected=$1 number status=0
  shift
  number=$(sed -n 's/^refused //p' "$expected")
  (cd / && "$@") >"$room/given" 2>"$room/error" || status=$?
  { grep -v '^refused' "$expected" || true; } | diff - "$room/given" || fail "$* differs"
  if [ -n "$number" ]; then
    seen[$number]=1
    echo "Error: refused $number: ${words[$number]}" | diff - "$room/error" || fail "main does not show refusal $number"
    [ "$status" -eq 1 ] || fail "main ends with $status where it is refused"
  else
    [ "$status" -eq 0 ] || fail "$* ends with $status" "$room/error"
  fi
}

# Runs an example that saves a file: what it must print and save is told by a script. Where the example is refused,
# nothing may be saved.
saving() {
  local script=$1 program=$2 file=$3
  shift 3
  rm -f "$room/saved.table" "$room/given.table"
  python3 "tests/hands/$script" "$file" "$room/saved.table" "$@" >"$room/expected"
  example "$room/expected" "$examples/$program" "$file" "$room/given.table" "$@"
  if [ -e "$room/saved.table" ] || [ -e "$room/given.table" ]; then
    cmp "$room/saved.table" "$room/given.table" || fail "$program saves another file for $file"
  fi
}
for file in "${files[@]}"; do
  python3 tests/hands/expected.py "$file" >"$room/expected"
  example "$room/expected" "$examples/read_and_refine" "$file"
  saving expected.py save "$file"
  saving expected_note.py note "$file"
done
sixty_four=$(printf '%064d' 0)
for named in "" "stand 2: 50% \\ 'ü'" $'\xff\x01\n' "$sixty_four" "${sixty_four}1"; do
  saving expected_note.py note "$room/noted/note-of-words.table" "$named"
done
[ ${#seen[@]} -eq ${#words[@]} ] || fail "the examples were not refused with each of ${!words[*]}"
around=$(python3 tests/hands/around.py "$examples/around") || fail "around differs"
python3 tests/hands/check_dot.py --rust "$examples/dot" >"$room/dot" || fail "dot differs" "$room/dot"
python3 tests/hands/check_arrow.py --rust "$examples/arrow" >"$room/arrow" || fail "arrow differs" "$room/arrow"
python3 tests/hands/check_slip.py --rust "$examples/slip" >"$room/slip" || fail "slip differs" "$room/slip"
python3 tests/hands/check_grid.py --rust "$examples/grid" >"$room/grid" || fail "grid differs" "$room/grid"
python3 tests/hands/check_window.py --rust "$examples/window" >"$room/window" || fail "window differs" "$room/window"

# A copy of the crate with nothing beside it: no archive, no tables.
apart=$room/apart
mkdir -p "$apart/rust" "$apart/lib" "$apart/stub"
cp -r rust/Cargo.toml rust/Cargo.lock rust/build.rs rust/src rust/examples "$apart/rust"
copied() (
  cd "$apart/rust"
  CARGO_TARGET_DIR="$apart/target" cargo "$@" >"$log" 2>&1
)

copied doc --offline --locked || fail "no documentation without the archive" "$log"
[ -f "$apart/target/doc/kiln/struct.Table.html" ] || fail "cargo doc wrote nothing" "$log"
missing_is_told() {
  if copied build --offline --locked; then fail "a build without the archive succeeds $1" "$log"; fi
  grep -q 'libkiln.a is not there' "$log" || fail "a build does not tell that the archive is missing $1" "$log"
  grep -q 'KILN_LIB_DIR' "$log" || fail "a build does not tell the cure $1" "$log"
}
missing_is_told "at first"

# An archive whose calls all return 200: it is the one that is linked, and its number is an error value.
nm "$archive" | awk '$2 == "T" && $3 ~ /^kiln_/ { print "unsigned char " $3 "(void) { return 200; }" }' >"$apart/stub.c"
gcc -c -o "$apart/stub.o" "$apart/stub.c"
ar rcs "$apart/stub/libkiln.a" "$apart/stub.o"
KILN_LIB_DIR=$apart/stub copied build --offline --locked --examples || fail "KILN_LIB_DIR is not honoured" "$log"
status=0
"$apart/target/debug/examples/around" "$root/tables/bench-s.table" 0 0 >"$room/given" 2>"$room/error" || status=$?
echo "Error: refused 200: a cause that this version of the crate has no words for" | diff - "$room/error" ||
  fail "a number without a name is not shown"
[ "$status" -eq 1 ] || fail "a number without a name ends main with $status"

# The true archive in another folder, named by its full path and from the crate's folder; then none again.
cp "$archive" "$apart/lib"
KILN_LIB_DIR=$apart/lib copied test --offline --locked --doc || fail "a doc test fails apart" "$log"
[ "$(passed '/Doc-tests/,$')" -eq "$doc_tests" ] || fail "not every doc test ran apart" "$log"
KILN_LIB_DIR=../lib copied build --offline --locked --examples || fail "a folder from the crate's fails" "$log"
"$apart/target/debug/examples/around" "$root/tables/bench-s.table" 0 0 >/dev/null || fail "around fails apart"
missing_is_told "after one with it"

echo "hands: Rust crate: $tests tests and $doc_tests doc tests passed, $layout, $lints;" \
  "examples as expected on ${#files[@]} files; $around; $(cat "$room/dot"); $(cat "$room/arrow");" \
  "$(cat "$room/slip"); $(cat "$room/grid"); $(cat "$room/window"); archive found where KILN_LIB_DIR says"
