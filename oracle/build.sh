#!/bin/sh
# build.sh SOURCE OUT_DIR [--std-sum]: extracts the Rust source in the folder SOURCE and builds OUT_DIR/oracle.
# rustc never fuses a product into a sum; the target is the baseline x86-64.
set -e
[ $# -ge 2 ] || { sed -n 2p "$0"; exit 1; }
here=$(cd "$(dirname "$0")" && pwd)
source=$1
out=$2
shift 2
mkdir -p "$out"
cp "$here"/src/*.rs "$out"/
python3 "$here/extract.py" "$source" "$out/extracted.rs" "$@" > "$out/extract.log"
names=$(cd "$here/src" && grep -l '^pub fn make(' *.rs | sed 's/\.rs$//')
{
    for name in $names; do echo "mod $name;"; done
    echo 'pub const MAKERS: &[(&str, fn(&mut list::List, u64))] = &['
    for name in $names; do echo "    (\"$name\", $name::make),"; done
    echo '];'
} > "$out/makers.rs"
rustc --edition 2024 -C opt-level=3 -A warnings "$out/main.rs" -o "$out/oracle"
