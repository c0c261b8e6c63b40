#!/bin/sh
# Makes each misuse of an allocation in a scratch copy of the crates that it needs, and expects the checker to reject it.
# A type error does not reach the prover, so a must-fail edit cannot show it. It changes nothing in the repository, and
# begins with the libraries that a run of rt ci or rt check in it built.
set -eu

root=$(cd "$(dirname "$0")/.." && pwd)
scratch=$(mktemp -d)
trap 'rm -rf "$scratch"' EXIT
below='origins values place stage allocation machine delivery emit'
mkdir -p "$scratch/crates/misuse/src"
# Only its words are meant to be split.
# shellcheck disable=SC2086
tar -C "$root/crates" --exclude='*/out/incremental' -cf - $below | tar -C "$scratch/crates" -xf -
for crate in $below; do
    grep "^$crate:" "$root/crates.txt"
done > "$scratch/crates.txt"
echo "misuse: $below" >> "$scratch/crates.txt"
failed=0

# Checks a function with the body on the input, after an allocation was opened.
check() {
    {
        echo '#![tactic(auto)]'
        echo 'use allocation::asked::Asked;'
        echo 'use allocation::frozen::Frozen;'
        echo 'use allocation::opened::Open;'
        echo 'use emit::caller::caller_code;'
        echo 'use place::registers::RegisterSet;'
        echo 'use stage::Stage;'
        echo 'use values::kinds::Kind;'
        echo 'pub fn round<P: Stage + Drop>(pile: P) -> Frozen<P> {'
        echo '    let mut open = Open::new(pile);'
        cat
        echo '}'
    } > "$scratch/crates/misuse/src/lib.rt"
    (cd "$scratch/crates/misuse" && rt check < /dev/null) > "$scratch/log" 2>&1
}

report() {
    echo "$1: $2"
    if [ "$2" = FAILED ]; then
        cat "$scratch/log"
        failed=1
    fi
}

accepts() {
    if check; then report "$1" accepted; else report "$1" FAILED; fi
}

# $2 is the checker's error.
rejects() {
    if check || ! grep -F "error[$2]" "$scratch/log" > /dev/null; then report "$1" FAILED; else report "$1" "rejected, $2"; fi
}

accepts 'what the types allow' <<'BODY'
    let _ = open.place(Asked::aligned(Kind::Unsigned, 4));
    open = open.freeze().reopen();
    let _ = open.place(Asked::aligned(Kind::Unsigned, 4));
    let frozen = open.freeze();
    let _ = caller_code(&frozen, &frozen, RegisterSet::EMPTY, &mut []);
    frozen
BODY

rejects 'placing on a frozen allocation' unknown-method <<'BODY'
    let mut frozen = open.freeze();
    let _ = frozen.place(Asked::aligned(Kind::Unsigned, 4));
    frozen
BODY

rejects 'placing on an allocation after it was frozen' borrow-e0382 <<'BODY'
    let frozen = open.freeze();
    let _ = open.place(Asked::aligned(Kind::Unsigned, 4));
    frozen
BODY

rejects 'taking code from an open allocation' mismatched-types <<'BODY'
    let _ = caller_code(&open, &open, RegisterSet::EMPTY, &mut []);
    open.freeze()
BODY

exit "$failed"
