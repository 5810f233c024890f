#!/usr/bin/env bash
# Two pieces of work may not build: feeding a sealed filling, and laying a table over a filling that is not sealed.
# Each text in .ci/misuse has a function that tries one of them (new:) and the compiler's word for its refusal (error:).
# The function is added to a copy of the crate models, and the compiler has to refuse the copy for that reason.
set -eu
cd "$(dirname "$0")/.."
copy=$(mktemp -d)
trap 'rm -rf "$copy"' EXIT
mkdir "$copy/crates"
for crate in frames masks graphs kripke models; do
    mkdir "$copy/crates/$crate"
    for part in src specs proofs; do
        if [ -d "crates/$crate/$part" ]; then cp -r "crates/$crate/$part" "$copy/crates/$crate/"; fi
    done
done
printf 'frames:\nmasks:\ngraphs: frames\nkripke:\nmodels: frames masks graphs kripke\n' > "$copy/crates.txt"
cp crates/models/src/lib.rt "$copy/lib.rt"
for text in .ci/misuse/*.txt; do
    name=$(basename "$text" .txt)
    { cat "$copy/lib.rt"; sed -n 's/^new: //p' "$text"; } > "$copy/crates/models/src/lib.rt"
    word=$(sed -n 's/^error: //p' "$text")
    if (cd "$copy/crates/models" && rt check > ../../log 2>&1); then
        echo "misuse: $name was built"
        exit 1
    fi
    if ! grep -q "src/lib.rt:.*error\[$word" "$copy/log"; then
        echo "misuse: $name was not refused for its types:"
        grep -m 3 error "$copy/log" || tail -n 3 "$copy/log"
        exit 1
    fi
    echo "misuse: $name is refused by the compiler ($word)"
done
