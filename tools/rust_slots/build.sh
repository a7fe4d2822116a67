#!/bin/sh
# build.sh SOURCES OUT: compiles the crate's topology.rs, slot_map.rs, slot_range_map.rs and read_routing/interface.rs,
# unchanged, with main.rs; NodeAddress and is_wildcard_address are cut out of the files that they stand in.
# SOURCES is the crate's folder src; OUT the program to write. Plain rustc, no other crates.
set -eu
if [ $# -ne 2 ]; then
    sed -n '2,4s/^# //p' "$0" >&2
    exit 1
fi
here=$(cd "$(dirname "$0")" && pwd)
sources=$(cd "$1" && pwd)
work=$(mktemp -d)
trap 'rm -rf "$work"' EXIT
mkdir -p "$work/cluster_handling/read_routing"
for file in topology slot_map slot_range_map read_routing/interface; do
    cp "$sources/cluster_handling/$file.rs" "$work/cluster_handling/$file.rs"
done
sed -n '/^pub(crate) fn is_wildcard_address/,/^}/p' "$sources/connection.rs" >"$work/is_wildcard_address.rs"
sed -n '/^\/\/\/ The address of a node/,/^impl TryFrom/p' "$sources/cluster_handling/mod.rs" | sed '$d' >"$work/node_address.rs"
cp "$here/main.rs" "$here/resp.rs" "$work/"
rustc --edition 2024 --crate-type rlib --crate-name arcstr "$here/../arcstr.rs" --out-dir "$work"
rustc --edition 2024 --crate-type rlib --crate-name rand "$here/rand.rs" --out-dir "$work"
rustc --edition 2024 -O --extern arcstr="$work/libarcstr.rlib" --extern rand="$work/librand.rlib" "$work/main.rs" -o "$2"
