#!/bin/sh
# Builds a package over the supplied Rust, which stays unchanged: the oracle, and the benchmark's driver. Prints the program's path.
#   tools/oracle/over_supplied.sh NAME PACKAGE SUPPLIED      SUPPLIED: the folder that holds packages/tcads-core
# The package gets the glue beside this file, src/ads and bitflags, and a link to bindings. The crates come from Debian's packages, fetched once
# below target/oracle; what is built goes below target/NAME.
set -eu
name=$1
package=$(cd "$2" && pwd)
supplied=$(cd "$3" && pwd)
glue=$(cd "$(dirname "$0")" && pwd)
root=$(cd "$glue/../.." && pwd)
fetched=$root/target/oracle
crates=$fetched/files/usr/share/cargo/registry
if ! ls -d "$crates"/csv-[0-9]* >/dev/null 2>&1; then
    packages=
    for crate in encoding-rs serde serde-derive serde-json thiserror thiserror-impl syn quote proc-macro2 unicode-ident cfg-if itoa ryu csv csv-core bstr memchr lazy-static regex-automata byteorder libc compiler-builtins rustc-std-workspace-core; do
        packages="$packages librust-$crate-dev"
    done
    # shellcheck disable=SC2086
    "$root/tools/debian" "$fetched" $packages >&2
fi
build=$root/target/$name
rm -rf "$build/src"
mkdir -p "$build/src" "$build/home"
cp -r "$package/Cargo.toml" "$package/src" "$glue/bitflags" "$build/src/"
[ ! -f "$package/build.rs" ] || cp "$package/build.rs" "$build/src/"
[ -d "$build/src/src/ads" ] || cp -r "$glue/src/ads" "$build/src/src/"
# rt ci refuses a link anywhere in the repository, so they go when the program is built.
trap 'rm -f "$build/src/supplied" "$build/src/bindings"' EXIT
ln -s "$supplied" "$build/src/supplied"
ln -s "$root/bindings" "$build/src/bindings"
cd "$build/src"
CARGO_HOME=$build/home CARGO_TARGET_DIR=$build/target cargo build --release --offline --quiet \
    --config 'source.crates-io.replace-with="debian"' \
    --config "source.debian.directory=\"$crates\"" >&2
echo "$build/target/release/$name"
