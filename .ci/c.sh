#!/bin/bash
# The programs and the C interface as they are used: the pipe of the README, the example in C, under valgrind too, and the second program,
# which was written apart from the library, on some thousand inputs, good and damaged.
set -euo pipefail
cd "$(dirname "$0")/.."
inputs=${1:-4000}
work=$(mktemp -d)
trap 'rm -rf "$work"' EXIT

bash tools/build place book track pomyrasei
library=target/staticlib/libpomyrasei.a

compile() { gcc -std=c11 -O2 -Wall -Wextra -Werror -Iinclude "$@"; }
generator="c/generate_draft.c c/generate_damage.c"
compile c/list.c "$library" -o "$work/list"
compile c/second.c c/second_core.c -o "$work/second"
compile c/generate.c $generator -o "$work/generate"
compile c/in_process.c c/second_core.c $generator "$library" -o "$work/in_process"

target/bin/book 97 > "$work/book"
printf '2\n94\n5\n' | target/bin/track > "$work/track"
cat "$work/book" "$work/track" | target/bin/place | cmp - crates/place/stdout
"$work/list" "$work/book" "$work/track" | cmp - crates/place/stdout
valgrind -q --error-exitcode=1 --leak-check=full "$work/list" "$work/book" "$work/track" | cmp - crates/place/stdout
echo "book, track and place, and the example in C, alone and under valgrind: the list is as stored"

"$work/in_process" "$inputs"
valgrind -q --error-exitcode=1 --leak-check=full "$work/in_process" 100
sh c/differential.sh target/bin/place "$work/second" "$work/generate" "$inputs"
