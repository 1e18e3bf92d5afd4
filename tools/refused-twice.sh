#!/usr/bin/env bash
# A program that settles the same token twice is refused by the compiler, before anything of it is proved:
# applies tools/settle-twice.edit to a copy of the crates that it needs, and wants the error borrow-e0382.
set -eu
cd "$(dirname "$0")/.."
edit=tools/settle-twice.edit
crates='field algebra polynomial inner_product token_use'
work=$(mktemp -d)
trap 'rm -rf "$work"' EXIT

# With what earlier checks kept in out/, the crates below are not proved again.
mkdir -p "$work/crates"
for c in $crates; do
    cp -r "crates/$c" "$work/crates/"
    grep "^$c:" crates.txt >>"$work/crates.txt"
done

line() { sed -n "s/^$1: //p" "$edit"; }
file=$work/$(line file)
if [ "$(grep -cxF -- "$(line old)" "$file")" -ne 1 ]; then
    echo "settle-twice: the edit does not fit the text"
    exit 1
fi
OLD=$(line old) NEW=$(line new) awk '$0 == ENVIRON["OLD"] { $0 = ENVIRON["NEW"] } { print }' "$file" >"$work/edited"
mv "$work/edited" "$file"

cd "$work/crates/token_use"
if rt check >"$work/said" 2>&1; then
    echo "settle-twice: NOT refused"
    exit 1
fi
if ! grep -q 'borrow-e0382' "$work/said"; then
    tail -n 20 "$work/said"
    echo "settle-twice: refused, but not for a token that is used twice"
    exit 1
fi
echo "settle-twice: refused, as it must be ($(sed -n 's/.*\[\(borrow-e0382\)\]\(: [^`]*`[^`]*`\).*/\1\2/p' "$work/said" | head -n 1))"
