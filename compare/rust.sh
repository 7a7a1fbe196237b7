# Shared by the comparisons with the whole Rust: what is at hand, the Rust's three files laid out unedited over stub crates, a driver built.
# `rust FOLDER` finds the Rust; `ours` builds the C interface; `driver NAME` builds drivers/src/bin/NAME.rs, and leaves its path in $built;
# `python_with MODULES` finds a python3.
set -eu
name=$(basename "$0")
fail() {
    echo "$name: $1" >&2
    exit 1
}
here=$(cd "$(dirname "${BASH_SOURCE[0]}")" && pwd)
root=$(dirname "$here")
laid=$root/target/compare
# where Debian puts the sources of Rust's crates
crates=${RUST_CRATES:-/usr/share/cargo/registry}

# an unchanged file is left alone, so that cargo builds only what changed
lay() {
    mkdir -p "$(dirname "$2")"
    cmp -s "$1" "$2" || cp "$1" "$2"
}

# a file of the Rust, in a checkout of its repository, or under a name with -- for each /
source_of() {
    local flat
    flat="src--$(echo "$2" | sed 's,/,--,g').txt"
    for f in "$1/$2" "$1/$flat"; do
        [ -r "$f" ] && { echo "$f"; return; }
    done
    fail "$1 has neither $2 nor $flat"
}

rust() {
    command -v cargo >/dev/null || fail "cargo is not at hand"
    [ -d "$1" ] || fail "$1 is no folder"
    ls -d "$crates"/rayon-[0-9]* >/dev/null 2>&1 || fail "no rayon in $crates: install Debian's librust-rayon-dev, or name another folder by RUST_CRATES"
    local f from
    for f in src/ndimage/label.rs src/ndimage/common.rs src/pool.rs; do
        from=$(source_of "$1" "$f") || exit 1
        lay "$from" "$laid/reference/$f"
    done
    (cd "$here" && find Cargo.toml stubs reference drivers -type f) | while read -r f; do lay "$here/$f" "$laid/$f"; done
    mkdir -p "$laid/.cargo"
    printf '[source.crates-io]\nreplace-with = "local"\n[source.local]\ndirectory = "%s"\n' "$crates" >"$laid/.cargo/config.toml"
}

# LABEL_C may name a folder that has the archive already; else it is built, unless it is there and no source is newer
ours() {
    [ -z "${LABEL_C:-}" ] || return 0
    export LABEL_C=$root/crates/label_c/out
    local archive=$LABEL_C/liblabel_c.a
    [ ! -e "$archive" ] || [ -n "$(find "$root/crates" "$root/crates.txt" -name out -prune -o \( -name '*.rt' -o -name crates.txt \) -newer "$archive" -print -quit)" ] || return 0
    command -v rt >/dev/null || fail "rt is not at hand"
    mkdir -p "$laid"
    (cd "$root/crates/label_c" && rt lib) >"$laid/said" 2>&1 || { cat "$laid/said" >&2; fail "label_c was not built"; }
}

# a python3 that has these modules, or nothing; PYTHON may name one
python_with() {
    local p
    for p in ${PYTHON:-} python3 /usr/bin/python3; do
        "$p" -c "import $1" 2>/dev/null && { echo "$p"; return; }
    done
    return 0
}

driver() {
    (cd "$laid" && cargo build --release --offline --bin "$1") >"$laid/said" 2>&1 || { cat "$laid/said" >&2; fail "$1 was not built"; }
    built=$laid/target/release/$1
}
