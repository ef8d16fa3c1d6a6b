# Sourced behind tools/common.sh by the scripts that build programs over the Rust.

# What --help says of RUST, for messages.
WHAT_RUST='a checkout of flash-lso (the crate, or the cargo workspace that has it in the folder flash-lso)'

# Sets rust, the folder of the crate flash-lso.
rust_crate() { # RUST
    local folder
    [ -d "$1" ] || die 2 "no such folder: $1; it must be $WHAT_RUST"
    for folder in "$1/flash-lso" "$1"; do
        if grep -qs '^name *= *"flash-lso"' "$folder/Cargo.toml"; then
            rust=$(cd "$folder" && pwd)
            return
        fi
    done
    die 2 "$1 is not $WHAT_RUST"
}

# Writes FOLDER/Cargo.toml, of a program whose source stands in this repository. The versions of what the Rust needs are those of its own Cargo.lock, if it has
# one.
rust_program() { # FOLDER NAME SOURCE DEPENDENCY..
    local folder=$1 name=$2 source=$3 lock
    shift 3
    mkdir -p "$folder" || exit 3
    cat >"$folder/Cargo.toml" <<END
[package]
name = "$name"
version = "0.0.0"
edition = "2024"
publish = false
[[bin]]
name = "$name"
path = "$root/$source"
[dependencies]
flash-lso = { path = "$rust", default-features = false }
$(printf '%s\n' "$@")
[workspace]
END
    rm -f "$folder/Cargo.lock"
    for lock in "$rust/Cargo.lock" "$rust/../Cargo.lock"; do
        if [ -f "$lock" ]; then
            cp "$lock" "$folder/Cargo.lock"
            break
        fi
    done
}

# Builds it, what cargo says going to LOG. Cargo is run in the Rust's folder, so that the Rust's own .cargo/config.toml holds, and without the network first.
# The Rust's lints are warnings, as they are of every crate that cargo gets from elsewhere: without its feature amf3 it has some that it would refuse.
rust_build() { # FOLDER LOG WORD..
    local folder=$1 log=$2 words
    shift 2
    words=(build --release --manifest-path "$folder/Cargo.toml" --config 'build.rustflags = ["--cap-lints", "warn"]' "$@")
    (
        cd "$rust"
        watched "building $(basename "$folder")" logged "$log" cargo "${words[@]}" --offline ||
            watched "building $(basename "$folder"), by the network" logged "$log" cargo "${words[@]}"
    ) || {
        tail -n 20 "$log" >&2
        die 3 "the program over the Rust could not be built; all that was said is in $log"
    }
}
