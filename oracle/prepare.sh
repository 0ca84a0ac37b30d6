# Proves and builds both sides, or says what is missing. `compare` and `bench` read this file; $here is its folder.

missing() {
    echo "oracle: $*" >&2
    exit 2
}

# Proves and builds the program that the set `stream` runs, if CATCH names no other one.
prepare_catch() {
    [ -z "${CATCH:-}" ] || return 0
    echo "oracle: proving and building catch"
    (cd crates/catch && rt run) </dev/null >"$here/target/catch.log" 2>&1 || {
        tail -n 20 "$here/target/catch.log" | cut -c 1-400 >&2
        missing "catch is not built; see oracle/target/catch.log"
    }
}

root=$(dirname "$here")
cd "$root"
export VERITASM_SRC="${VERITASM_SRC:-../shared/docs/src}"

command -v rt >/dev/null || missing "rt, the Rattle toolchain, is not on the path"
command -v cargo >/dev/null || missing "cargo is not on the path"
[ "$(uname -m)" = x86_64 ] || missing "the static library is for x86-64, and this machine is $(uname -m)"
for module in audit indexed_mapper model; do
    [ -f "$VERITASM_SRC/src/$module.rs" ] ||
        missing "no $VERITASM_SRC/src/$module.rs; set VERITASM_SRC to a copy of veritasm (oracle/README.md)"
done

mkdir -p "$here/target"
echo "oracle: proving and building the libraries"
for library in jekaumeo jekaumeo_audit; do
    (cd "crates/$library" && rt lib) >"$here/target/$library.log" 2>&1 || {
        tail -n 20 "$here/target/$library.log" | cut -c 1-400 >&2
        missing "$library is not built; see oracle/target/$library.log"
    }
done
echo "oracle: building the Rust from $VERITASM_SRC"
cargo build --quiet --release --offline --manifest-path "$here/Cargo.toml" --target-dir "$here/target" ||
    missing "the Rust is not built"
