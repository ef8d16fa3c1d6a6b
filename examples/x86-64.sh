# Sourced behind tools/common.sh by the scripts that build programs over the C library, which is x86-64 code: what compiles and runs such programs on this
# machine.
#
# On x86-64: this machine's compiler. Elsewhere (Arm): Debian's cross compiler gcc-x86-64-linux-gnu, programs linked statically, and the emulator of
# qemu-user; for Rust also a standard library for x86-64, either rustup's (rustup target add x86_64-unknown-linux-gnu) or Debian's rustc-web with the
# amd64 package of its library unpacked beside it. What is missing is installed where this is run by root on a Debian system, and named where it isn't.

debian() {
    if [ "$(id -u)" = 0 ] && command -v apt-get >/dev/null; then
        apt-get install -y --no-install-recommends "$@" >&2 || die 2 "apt-get can't install Debian's packages $*"
    else
        die 2 "missing: Debian's packages $*"
    fi
}

# Sets CC, LDFLAGS and RUN, the words that a program is run by.
c_for_x86() {
    CC=${CC:-cc} LDFLAGS='' RUN=''
    if [ "$(uname -m)" = x86_64 ]; then
        need "${CC%% *}"
        return 0
    fi
    CC=x86_64-linux-gnu-gcc LDFLAGS=-static RUN=qemu-x86_64
    command -v "$CC" >/dev/null || debian gcc-x86-64-linux-gnu libc6-dev-amd64-cross
    command -v "$RUN" >/dev/null || debian qemu-user
}

# Sets SANITIZE: what the compiler has to look for faults at run time, as far as programs that are made with it run here.
sanitize_for_x86() { # WORK
    local words
    for words in '-fsanitize=undefined,address -fno-sanitize-recover=all' '-fsanitize=undefined -fsanitize-undefined-trap-on-error' ''; do
        SANITIZE=$words
        echo 'int main(void) { return 0; }' | $CC $words $LDFLAGS -x c -o "$1/sanitized" - 2>/dev/null && $RUN "$1/sanitized" 2>/dev/null && break
    done
}

# Sets what cargo reads, and RUST_TARGET, the words for --target. WORK is a folder for what is unpacked.
rust_for_x86() { # WORK
    RUST_TARGET=''
    command -v cargo >/dev/null || debian cargo-web
    [ "$(uname -m)" != x86_64 ] || return 0
    RUST_TARGET='--target x86_64-unknown-linux-gnu'
    export CARGO_TARGET_X86_64_UNKNOWN_LINUX_GNU_LINKER=$CC CARGO_TARGET_X86_64_UNKNOWN_LINUX_GNU_RUNNER=$RUN
    # Debian's cross libm.a names a folder that isn't there.
    mkdir -p "$1/libm"
    sed 's:/usr/lib/x86_64-linux-gnu/:/usr/x86_64-linux-gnu/lib/:g' /usr/x86_64-linux-gnu/lib/libm.a >"$1/libm/libm.a"
    flags="-C target-feature=+crt-static -C relocation-model=static -L native=$1/libm"
    if [ ! -d "$(rustc --print target-libdir --target x86_64-unknown-linux-gnu 2>/dev/null)" ]; then
        [ "$(dpkg-query -W -f '${Status}' rustc-web 2>/dev/null)" = 'install ok installed' ] || debian rustc-web
        export RUSTC=/usr/bin/rustc
        library_for_x86 "$1"
        flags="--sysroot $1/sysroot $flags"
    fi
    export CARGO_TARGET_X86_64_UNKNOWN_LINUX_GNU_RUSTFLAGS=$flags
}

# WORK/sysroot: the installed standard library for this machine, and its amd64 package, fetched with lists of its own and unpacked.
library_for_x86() { # WORK
    version=$(dpkg-query -W -f '${Version}' libstd-rust-web-dev)
    [ ! -e "$1/sysroot/$version" ] || return 0
    rm -rf "$1/sysroot" "$1/apt"
    mkdir -p "$1/sysroot/lib/rustlib" "$1/apt/lists/partial" "$1/apt/cache/archives/partial"
    (
        cd "$1/apt"
        words=(-q -o APT::Architecture=amd64 -o APT::Architectures=amd64 -o APT::Sandbox::User= -o "Dir::State::lists=$PWD/lists" -o "Dir::Cache=$PWD/cache")
        apt-get "${words[@]}" update >&2
        apt-get "${words[@]}" download "libstd-rust-web-dev=$version" >&2
        dpkg-deb -x libstd-rust-web-dev_*_amd64.deb unpacked
    )
    ln -s "$1/apt/unpacked/usr/lib/rustlib/x86_64-unknown-linux-gnu" "$1/sysroot/lib/rustlib/"
    ln -s /usr/lib/rustlib/"$(uname -m)"-unknown-linux-gnu "$1/sysroot/lib/rustlib/"
    touch "$1/sysroot/$version"
}
