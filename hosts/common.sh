# Sourced by the commands of this folder. `for_target x86_64` is for the archives as they ship; `for_target native` for the machine at hand.
# Either proves and builds both archives and exports what a build needs:
#   QHOBUZIYA_ARCHIVES   the folder of the two archives
#   CC CARGO RUN         the C compiler, cargo, and what starts a program that they made (nothing on its own processor)
#   OUT                  where cargo leaves what it built
root=$(dirname "$(dirname "$(readlink -f "$0")")")
machine=$(uname -m)
say() { printf '%s: %s\n' "$(basename "$0")" "$*" >&2; }

rt=$(command -v rt) || { say "rt, of Rattle's kit, is not on the path"; exit 2; }
kit=${RATTLE_HOME:-$(dirname "$(dirname "$(readlink -f "$rt")")")}
tools=$kit/toolchain

# Installs Debian's packages where a file or a command that they bring is missing: root does it, anybody else is told how.
need() { # WHAT PACKAGE..
    what=$1
    shift
    if [ -e "$what" ] || command -v "$what" >/dev/null 2>&1; then return; fi
    if [ "$(id -u)" -ne 0 ]; then
        say "$what is missing, and only root can install it: apt-get install $*"
        exit 2
    fi
    case "$*" in *:amd64*) dpkg --add-architecture amd64 ;; esac
    say "installing $*"
    { apt-get update && apt-get install -y --no-install-recommends "$@"; } >/dev/null 2>&1 || { say "$* could not be installed"; exit 2; }
}

# The archive libNAME.a, from the proved code: the crate NAME_c exports what the library NAME has.
archive() { # NAME
    say "proving $1 and building its archive: seconds, or some minutes where nothing is proved yet"
    said=$(cd "$root/crates/$1_c" && "$rt" lib 2>&1) || { printf '%s\n' "$said" >&2; exit 1; }
    mkdir -p "$root/target/staticlib"
    cp "$root/crates/$1_c/out/lib$1_c.a" "$root/target/staticlib/lib$1.a"
}

# For the archives as they ship, which are for x86-64. Another processor builds with cross compilers and runs under Debian's
# qemu: the kit's own ends at the start of a program in Rust.
for_x86_64() {
    archive qhobuziya_host
    archive qhobuziya_decode
    export QHOBUZIYA_ARCHIVES="$root/target/staticlib" CARGO_TARGET_DIR="$root/target/hosts/x86_64"
    if [ "$machine" = x86_64 ]; then
        own_compilers
        return
    fi
    need x86_64-linux-gnu-gcc gcc-x86-64-linux-gnu libc6-dev-amd64-cross
    need /usr/lib/rustlib/x86_64-unknown-linux-gnu rustc cargo libstd-rust-dev:amd64
    need qemu-x86_64 qemu-user
    export CC='x86_64-linux-gnu-gcc -static' RUN=qemu-x86_64
    export CARGO=/usr/bin/cargo RUSTC=/usr/bin/rustc CARGO_BUILD_TARGET=x86_64-unknown-linux-gnu
    export CARGO_TARGET_X86_64_UNKNOWN_LINUX_GNU_LINKER=x86_64-linux-gnu-gcc
    export CARGO_TARGET_X86_64_UNKNOWN_LINUX_GNU_RUNNER="$RUN"
    OUT=$CARGO_TARGET_DIR/x86_64-unknown-linux-gnu
}

own_compilers() {
    need cc gcc libc6-dev
    need cargo cargo
    export CC=cc CARGO=cargo RUN=''
    OUT=$CARGO_TARGET_DIR
}

# For times that mean something: the archives as they ship on x86-64; elsewhere the same modules, compiled for this processor.
for_native() {
    if [ "$machine" = x86_64 ]; then
        for_x86_64
        return
    fi
    keeping_kit
    for name in qhobuziya_host qhobuziya_decode; do
        RATTLE_HOME="$kept/kit" archive "$name"
        retarget "$name"
    done
    export QHOBUZIYA_ARCHIVES="$kept" CARGO_TARGET_DIR="$root/target/hosts/native"
    own_compilers
}

# A folder that looks like the kit, but whose compiler keeps a copy of the module that it is given.
keeping_kit() {
    kept=$root/target/hosts/kept
    rm -rf "$kept"
    mkdir -p "$kept/kit/toolchain/bin"
    for part in '' toolchain/ toolchain/bin/; do
        for file in "$kit/$part"*; do
            [ -e "$kept/kit/$part$(basename "$file")" ] || ln -s "$file" "$kept/kit/$part$(basename "$file")"
        done
    done
    rm "$kept/kit/toolchain/bin/clang"
    cat >"$kept/kit/toolchain/bin/clang" <<END
#!/bin/sh
cp module.bc "$kept/module.bc"
exec "$tools/bin/clang" "\$@"
END
    chmod +x "$kept/kit/toolchain/bin/clang"
}

# Compiles the module that was kept, with the kit's compiler and its options, for this processor. Two things in it are the C convention
# of x86-64, a large record that is handed in and one that is returned; they are said as this processor's convention has them.
retarget() { # NAME
    "$tools/bin/clang" -x ir -S -emit-llvm -O3 -Xclang -disable-llvm-passes --target=x86_64-unknown-linux-gnu \
        -o "$kept/x86_64.ll" "$kept/module.bc"
    sed -e '/^target /d' -e 's/ "target-cpu"="x86-64"//' -e 's/ byval(\[[0-9]* x i8\])//' \
        -e 's/^define noundef ptr @\(qhobuziya_[a-z]*\)(ptr noundef %a0/define void @\1(ptr noundef sret(i8) align 8 %a0/' \
        -e 's/^  ret ptr %a0$/  ret void/' "$kept/x86_64.ll" >"$kept/$machine.ll"
    "$tools/bin/clang" -Wno-override-module -c -x ir -O3 -fPIC -ffunction-sections -fdata-sections -mllvm -trap-unreachable -mllvm -no-trap-after-noreturn \
        -o "$kept/$1.o" "$kept/$machine.ll"
    rm -f "$kept/lib$1.a"
    "$tools/bin/llvm-ar" rcs "$kept/lib$1.a" "$kept/$1.o"
}

# A command that another one starts finds all of it ready.
for_target() { # x86_64, or native
    cd "$root" || exit 2
    if [ "${HOSTS_TARGET:-}" = "$1" ]; then return; fi
    mkdir -p target/hosts
    case $1 in
    x86_64) for_x86_64 ;;
    native) for_native ;;
    esac
    export HOSTS_TARGET="$1" OUT
}
