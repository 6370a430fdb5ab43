#!/bin/sh
# usage: run.sh SKRIFA_SRC SMALLVEC_SRC [HEXFILE]
# SKRIFA_SRC is the folder src of skrifa 0.49.0, SMALLVEC_SRC the folder src of smallvec 1. Builds the proved library
# and the driver, and runs it over the stored records and those of HEXFILE. See docs/SPEED.md.
set -e
here=$(cd "$(dirname "$0")" && pwd)
root=$(dirname "$here")
skrifa=$(cd "$1" && pwd)
smallvec=$(cd "$2" && pwd)
file=${3:+$(realpath "$3")}
kit=$(dirname "$(rt doc)")
mkdir -p "$root/target"
(cd "$root/crates/bench_api" && rt lib > "$root/target/bench-build.log" 2>&1) || { tail "$root/target/bench-build.log"; exit 1; }
build=$root/target/bench
rm -rf "$build"
# where rustc looks for the files that inline modules name by #[path]
mkdir -p "$build/outline/autohint/topo"
cp "$skrifa/outline/unscaled.rs" "$build/outline/"
cp "$skrifa/outline/autohint/outline.rs" "$build/outline/autohint/"
cp "$skrifa/outline/autohint/topo/mod.rs" "$skrifa/outline/autohint/topo/segments.rs" "$build/outline/autohint/topo/"
cp "$root/tools/rust/edges.rs" "$build/outline/autohint/topo/"
cp "$root/tools/rust/original.rs" "$root/tools/rust/read_fonts.rs" "$here"/*.rs "$build/"
(
    cd "$build"
    rustc --edition 2018 -C opt-level=3 --cap-lints allow --cfg 'feature="const_generics"' \
        --crate-type rlib --crate-name smallvec "$smallvec/lib.rs" -o libsmallvec.rlib
    rustc --edition 2021 -C opt-level=3 --crate-type rlib --crate-name read_fonts read_fonts.rs -o libread_fonts.rlib
    # as Cargo builds a release; debug info changes no code, and lets a profiler tell names
    rustc --edition 2021 -C opt-level=3 -g --cap-lints allow main.rs \
        --extern raw=libread_fonts.rlib --extern read_fonts=libread_fonts.rlib --extern smallvec=libsmallvec.rlib \
        -L "$root/crates/bench_api/out" -l static=bench_api -C link-arg="$kit/c/libos_c.a" -C link-arg="$kit/c/liblibc_c.a" -o bench
)
cd "$root"
exec target/bench/bench crates/replay/stdin ${file:+"$file"}
