#!/bin/sh
# build.sh SOURCES OUT: compiles the crate's errors/server_error.rs and errors/redis_error.rs, unchanged, with main.rs
# SOURCES is the crate's folder src; OUT the program to write. Plain rustc, no other crates.
set -eu
here=$(cd "$(dirname "$0")" && pwd)
sources=$(cd "$1" && pwd)
work=$(mktemp -d)
trap 'rm -rf "$work"' EXIT
mkdir "$work/errors"
cp "$sources/errors/server_error.rs" "$sources/errors/redis_error.rs" "$work/errors/"
cp "$here/main.rs" "$work/"
rustc --edition 2024 --crate-type rlib --crate-name arcstr "$here/../arcstr.rs" --out-dir "$work"
rustc --edition 2024 -O --extern arcstr="$work/libarcstr.rlib" "$work/main.rs" -o "$2"
