#!/bin/sh
# Builds the oracle, build/oracle. Needs:
#   HOTSTUFF_SRC    a checkout of asonnino/hotstuff at 082d36d637, or the folder of its consensus sources (core.rs, ..)
#   RUST_CRATES_DIR (optional) a cargo directory source with tokio, serde, ..; else that of Debian's packages
#   ORACLE_WRAP=1   (optional) without overflow checks, as a release build of the Rust is: build/oracle-wrap
# The sources must have the sums of SOURCES.sha256.
set -eu
packages="librust-tokio-dev librust-serde-dev librust-serde-derive-dev librust-bincode-dev librust-thiserror-dev
librust-futures-dev librust-async-trait-dev librust-async-recursion-dev librust-bytes-dev librust-log-dev"
here=$(cd "$(dirname "$0")" && pwd)
: "${CARGO:=cargo}"
: "${HOTSTUFF_SRC:?set it to a checkout of asonnino/hotstuff at 082d36d637}"
if [ -z "${RUST_CRATES_DIR:-}" ]; then
    for package in $packages; do
        dpkg -s "$package" > /dev/null 2>&1 || missing="${missing:-} $package"
    done
    if [ -n "${missing:-}" ]; then
        echo "missing; apt-get install --no-install-recommends$missing" >&2
        exit 1
    fi
    RUST_CRATES_DIR=$(dpkg -L librust-tokio-dev | sed -n 's,/tokio-[0-9.]*$,,p' | head -n 1)
fi
if ! command -v "$CARGO" > /dev/null; then
    echo "missing; apt-get install --no-install-recommends cargo" >&2
    exit 1
fi

from=$HOTSTUFF_SRC
if [ -d "$from/consensus/src" ]; then
    from=$from/consensus/src
fi
src="$here/build/consensus-src"
rm -rf "$src"
mkdir -p "$src"
while read -r sum name; do
    cp "$from/$name" "$src/$name"
done < "$here/SOURCES.sha256"
(cd "$src" && sha256sum --quiet -c "$here/SOURCES.sha256")
# The crate's root: lib.rs as it is, and one module more beside the others.
{ cat "$src/lib.rs"; printf '\n#[path = "../../driver/oracle_driver.rs"]\npub mod oracle_driver;\n'; } > "$src/root.rs"

name=oracle
if [ "${ORACLE_WRAP:-}" = 1 ]; then
    name=oracle-wrap
    export CARGO_PROFILE_RELEASE_OVERFLOW_CHECKS=false
fi
cd "$here"
CARGO_TARGET_DIR="$here/build/target-$name" "$CARGO" \
    --config 'source.crates-io.replace-with="local-crates"' \
    --config "source.local-crates.directory=\"$RUST_CRATES_DIR\"" \
    build --release --offline -p oracle
cp "$here/build/target-$name/release/oracle" "$here/build/$name.new"
mv "$here/build/$name.new" "$here/build/$name"
