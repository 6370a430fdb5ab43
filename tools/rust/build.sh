#!/bin/sh
# usage: build.sh SKRIFA_SRC SMALLVEC_SRC OUT
# SKRIFA_SRC is the folder src of skrifa 0.49.0, SMALLVEC_SRC the folder src of smallvec 1. Writes the
# program OUT/original, with overflow checks on: a panic is an overflow in the Rust.
set -e
here=$(cd "$(dirname "$0")" && pwd)
skrifa=$(cd "$1" && pwd)
smallvec=$(cd "$2" && pwd)
mkdir -p "$3"
out=$(cd "$3" && pwd)
build=$out/build
rm -rf "$build"
# where rustc looks for the files that inline modules name by #[path]
mkdir -p "$build/outline/autohint/topo"
cp "$skrifa/outline/unscaled.rs" "$build/outline/"
cp "$skrifa/outline/autohint/outline.rs" "$build/outline/autohint/"
cp "$skrifa/outline/autohint/topo/mod.rs" "$skrifa/outline/autohint/topo/segments.rs" "$build/outline/autohint/topo/"
cp "$here/edges.rs" "$build/outline/autohint/topo/"
cp "$here/main.rs" "$here/original.rs" "$here/read_fonts.rs" "$build/"
cd "$build"
rustc --edition 2018 -C opt-level=3 --cap-lints allow --cfg 'feature="const_generics"' \
  --crate-type rlib --crate-name smallvec "$smallvec/lib.rs" -o libsmallvec.rlib
rustc --edition 2021 -C opt-level=3 --crate-type rlib --crate-name read_fonts read_fonts.rs -o libread_fonts.rlib
rustc --edition 2021 -C opt-level=3 -C overflow-checks=on -C debug-assertions=on --cap-lints allow main.rs \
  --extern raw=libread_fonts.rlib --extern read_fonts=libread_fonts.rlib --extern smallvec=libsmallvec.rlib \
  -o "$out/original"
