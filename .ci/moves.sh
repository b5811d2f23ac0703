#!/bin/bash
# Shows what the types refuse: rooting a mark with a draft, and adopting into a draft that was closed.
# A small crate that does it right must pass; the same crate with one line changed must be refused, for the named reason.
set -euo pipefail
cd "$(dirname "$0")/.."
work=$(mktemp -d)
trap 'rm -rf "$work"' EXIT
cp -r crates crates.txt "$work"
mkdir -p "$work/crates/moves/src"
echo 'moves: theory refusals ring fields joining roots' >> "$work/crates.txt"
source="$work/crates/moves/src/lib.rt"

cat > "$work/right" <<'RATTLE'
#![tactic(auto)]

use fields::Residues;
use roots::Draft;

pub fn place(field: Residues, root: u64, mark: u64) -> u64 {
    let mut draft = Draft::start(field);
    let _ = draft.give(root);
    let plan = draft.close();
    match plan.root(mark) {
        Ok(((smaller, _), _)) => smaller,
        Err(_) => 0,
    }
}
RATTLE

check() { (cd "$work/crates/moves" && rt check) > "$work/log" 2>&1; }

refused() { # what it shows, the reason, the old text, the new text
    sed "s/$3/$4/" "$work/right" > "$source"
    if cmp -s "$source" "$work/right"; then echo "$1: the edit changed nothing"; exit 1; fi
    if check; then echo "$1: accepted, and must be refused"; exit 1; fi
    if ! grep -q "$2" "$work/log"; then tail -20 "$work/log"; echo "$1: refused, but not as $2"; exit 1; fi
    echo "$1: refused, $2"
}

cp "$work/right" "$source"
if ! check; then tail -20 "$work/log"; echo "the right order of calls: refused, and must pass"; exit 1; fi
echo "closing and then rooting: accepted"
refused "rooting with a draft" unknown-method 'match plan.root(mark)' 'match draft.root(mark)'
refused "adopting after closing" borrow-e0382 'let plan = draft.close();' 'let plan = draft.close(); let _ = draft.adopt(3, 1, 35);'
