#!/usr/bin/env bash
# The library from C, C++ and Rust: what the archive needs and has; that C, Rust and the library agree on the types of
# each call; every call on the bench sheet, plain and with a table in a struct; slips and their commits, and the
# insertion of both; the levels under boxes and points; the slopes and the arrow; the counts and the notes in files;
# grids; windows over records; the header's version and words; the examples, held to the evaluator; the Rust crate's doc
# tests. All that is C is built by gcc and clang, as C99 and as C++11.
#
# Run as: tests/hands/run.sh
set -euo pipefail
cd "$(dirname "${BASH_SOURCE[0]}")/../.."

for tool in python3 gcc g++ clang clang++ nm cargo; do
  if ! command -v "$tool" >/dev/null; then
    echo "hands: $tool is not on this machine" >&2
    exit 2
  fi
done

archive=target/staticlib/libkiln.a
room=target/hands
mkdir -p "$room"
if [ ! -f "$archive" ] || [ -n "$(find crates -name out -prune -o -newer "$archive" -type f -print -quit)" ]; then
  tools/archive.sh
fi

needs=$(nm -u -P "$archive" | awk 'NF > 1 { print $1 }' | sort -u | paste -sd ' ')
if [ "$needs" != "memcpy memset" ]; then
  echo "hands: the archive needs '$needs' and not memcpy and memset alone" >&2
  exit 1
fi
types=$(python3 tests/hands/check_types.py "$archive") || { echo "$types"; exit 1; }

# What the words and three examples must print, and what two of them must save, for each sample table, for one that is
# cut short, for one without its counts and with a wrong one, and for those with a note.
python3 tests/hands/rust_words.py >"$room/words.expected"
head -c 100 tables/kiln-refined-near-top-heat.table >"$room/cut.table"
python3 tests/hands/counted.py tables/kiln-unrefined.table "$room/without-counts.table" "$room/miscounted.table"
rm -rf "$room/noted" "$room"/*.saved "$room"/*.kept
mkdir -p "$room/noted"
python3 tests/hands/noted.py tables/kiln-unrefined-counted.table "$room/noted"
files=(tables/*.table "$room/cut.table" "$room/without-counts.table" "$room/miscounted.table" "$room"/noted/*.table)
for file in "${files[@]}"; do
  name=$room/$(basename "$file")
  python3 tests/hands/expected.py "$file" >"$name.read_and_refine"
  python3 tests/hands/expected.py "$file" "$name.saved" >"$name.save"
  python3 tests/hands/expected_note.py "$file" "$name.kept" >"$name.note"
done
for made in saved kept; do
  if [ "$(find "$room" -name "*.$made" | wc -l)" -ne 13 ]; then
    echo "hands: the table files give the examples too little to save" >&2
    exit 1
  fi
done

# Notes that are named to an example: of no bytes, of some, of as many as there may be and of one more, for a table
# with a note of its own.
sixty_four=$(printf '%064d' 0)
named=("" "stand 2: 50% \\ 'u'" $'\xff\x01\n' "$sixty_four" "${sixty_four}1")
own=$room/noted/note-of-words.table
for k in "${!named[@]}"; do
  python3 tests/hands/expected_note.py "$own" "$room/named-$k.kept" "${named[k]}" >"$room/named-$k.note"
done

# Runs an example, which must print what a file has and exit with the refusal number there.
example() {
  local expected=$1 status=0 refused
  shift
  "$@" >"$room/given" || status=$?
  diff "$expected" "$room/given"
  refused=$(sed -n 's/^refused //p' "$expected")
  if [ "$status" != "${refused:-0}" ]; then
    echo "hands: $* exits with $status" >&2
    exit 1
  fi
}

# Whether an example saved what it must; where it is refused, nothing.
saved() {
  if [ -e "$1" ] || [ -e "$room/given.table" ]; then cmp "$1" "$room/given.table"; fi
  rm -f "$room/given.table"
}

strict=(-O2 -pedantic -Wall -Wextra -Werror -Iinclude)
builds=("gcc -std=c99 -x c" "clang -std=c99 -x c" "g++ -std=c++11 -x c++" "clang++ -std=c++11 -x c++")
points=()
dots=()
arrows=()
slips=()
grids=()
windows=()
for build in "${builds[@]}"; do
  read -ra c <<<"$build"
  into=$room/${c[0]}
  mkdir -p "$into"
  for header in include/*.h; do
    printf '#include "%s"\n' "$(basename "$header")" | "${c[@]}" "${strict[@]}" -ffreestanding -fsyntax-only -
  done
  for source in tests/hands/*.c examples/*.c; do
    "${c[@]}" "${strict[@]}" -o "$into/$(basename "$source" .c)" "$source" -x none "$archive" -lm
  done

  calls=$("$into/calls") || { echo "${c[0]}: $calls"; exit 1; }
  structs=$("$into/structs") || { echo "${c[0]}: $structs"; exit 1; }
  enquiries=$("$into/slips") || { echo "${c[0]}: $enquiries"; exit 1; }
  two_calls=$("$into/two_calls") || { echo "${c[0]}: $two_calls"; exit 1; }
  levels=$("$into/levels") || { echo "${c[0]}: $levels"; exit 1; }
  slopes=$("$into/slopes") || { echo "${c[0]}: $slopes"; exit 1; }
  counts=$("$into/counts") || { echo "${c[0]}: $counts"; exit 1; }
  notes=$("$into/notes") || { echo "${c[0]}: $notes"; exit 1; }
  dialect=$("$into/grids") || { echo "${c[0]}: $dialect"; exit 1; }
  hours=$("$into/windows") || { echo "${c[0]}: $hours"; exit 1; }
  "$into/words" | diff "$room/words.expected" -
  rm -f "$room/given.table"
  for file in "${files[@]}"; do
    name=$room/$(basename "$file")
    example "$name.read_and_refine" "$into/read_and_refine" "$file"
    example "$name.save" "$into/save" "$file" "$room/given.table"
    saved "$name.saved"
    example "$name.note" "$into/note" "$file" "$room/given.table"
    saved "$name.kept"
  done
  for k in "${!named[@]}"; do
    example "$room/named-$k.note" "$into/note" "$own" "$room/given.table" "${named[k]}"
    saved "$room/named-$k.kept"
  done
  for saving in save note; do
    status=0
    "$into/$saving" tables/kiln-unrefined.table "$room/none/given.table" >/dev/null 2>"$room/error" || status=$?
    echo "$saving: '$room/none/given.table' can't be written" | diff - "$room/error"
    [ "$status" -eq 255 ] || { echo "hands: $saving exits with $status where it can't write" >&2; exit 1; }
  done
  points+=("$into/point")
  dots+=("$into/dot")
  arrows+=("$into/arrow")
  slips+=("$into/slip")
  grids+=("$into/grid")
  windows+=("$into/window")
done
point=$(python3 tests/hands/check_point.py "${points[@]}") || { echo "$point"; exit 1; }
dot=$(python3 tests/hands/check_dot.py "${dots[@]}") || { echo "$dot"; exit 1; }
arrow=$(python3 tests/hands/check_arrow.py "${arrows[@]}") || { echo "$arrow"; exit 1; }
slip=$(python3 tests/hands/check_slip.py "${slips[@]}") || { echo "$slip"; exit 1; }
grid=$(python3 tests/hands/check_grid.py "${grids[@]}") || { echo "$grid"; exit 1; }
window=$(python3 tests/hands/check_window.py "${windows[@]}") || { echo "$window"; exit 1; }

tests/hands/rust.sh

echo "hands: $types; with each of ${#builds[@]} compilers $calls; $structs; $enquiries; $two_calls; $levels; $slopes;" \
  "$counts; $notes; $dialect; $hours; $point; $dot; $arrow; $slip; $grid; $window;" \
  "examples as expected on ${#files[@]} files"
