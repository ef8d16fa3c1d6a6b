# Sourced behind tools/common.sh and examples/x86-64.sh: the tests of the Rust wrapper, a line `test .. ok` for each.
#
# Cargo runs the examples in the documentation too, but where it compiles for another machine only since 1.89, and only with a rustdoc that is as new. Debian's is
# older. So there they are run by rustdoc itself.

# Runs all tests, with what rust_for_x86 has set; what is said goes to LOG.
rust_tests() { # FOLDER-OF-CARGO LOG
    (
        cd "$root/examples/rust" || exit 1
        # shellcheck disable=SC2206 # no word or two
        words=(--offline --target-dir "$1" $RUST_TARGET)
        { if [ -z "$RUST_TARGET" ]; then cargo test "${words[@]}"; else for_another "$1"; fi; } &&
            printed "$1" prices prices && printed "$1" reply reply && printed "$1" reply reply-bent ../../samples/bent.amf &&
            said "$1" '' 'RIDDOSKAM_LIB is empty' && said "$1" "$1/none" "can't be read" && said "$1" "$1/empty" 'it has no riddoskam_put'
    ) >"$2" 2>&1
}

for_another() { # FOLDER-OF-CARGO
    cargo test "${words[@]}" --lib --tests --examples && cargo build "${words[@]}" && documented "$1"
}

# The examples in the documentation, compiled for x86-64 and run by RUN, with the flags that cargo has for that target.
documented() { # FOLDER-OF-CARGO
    local doc=rustdoc run=(--test-runtool "$RUN")
    # The rustdoc of the compiler that made the library.
    [ -z "${RUSTC:-}" ] || doc=$(dirname "$RUSTC")/rustdoc
    if ! "$doc" --help | grep -q test-runtool; then
        export RUSTC_BOOTSTRAP=1
        run=(-Z unstable-options --runtool "$RUN")
    fi
    # What cargo would set.
    export CARGO_MANIFEST_DIR=$PWD CARGO_PKG_VERSION
    CARGO_PKG_VERSION=$(sed -n 's/^version = "\(.*\)"$/\1/p' Cargo.toml)
    # shellcheck disable=SC2086 # words
    "$doc" --test src/lib.rs --crate-name riddoskam --edition 2021 "${run[@]}" $RUST_TARGET \
        -C linker="$CARGO_TARGET_X86_64_UNKNOWN_LINUX_GNU_LINKER" $CARGO_TARGET_X86_64_UNKNOWN_LINUX_GNU_RUSTFLAGS \
        -L native="${RIDDOSKAM_LIB:-$root/target/staticlib}" --extern riddoskam="$1/x86_64-unknown-linux-gnu/debug/libriddoskam.rlib"
}

# A program of examples/ prints what stands in a file there.
printed() { # FOLDER-OF-CARGO NAME FILE WORD..
    local folder=$1 name=$2 file=$3.stdout
    shift 3
    cargo run "${words[@]}" --quiet --example "$name" -- "$@" >"$folder/$file" && diff "examples/$file" "$folder/$file" && echo "test examples/$file ... ok"
}

# The build script refuses a folder, with a line that has the words, and no backtrace.
said() { # FOLDER-OF-CARGO RIDDOSKAM_LIB WORDS
    local log=$1/said
    mkdir -p "$1/empty" && : >"$1/empty/libriddoskam.a"
    if RIDDOSKAM_LIB=$2 cargo build "${words[@]}" >"$log" 2>&1 || ! grep -q "^error: riddoskam@.*$3" "$log" || grep -q backtrace "$log"; then
        cat "$log"
        return 1
    fi
    echo "test build.rs, $3 ... ok"
}
