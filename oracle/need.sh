# Sourced by the scripts of examples and by build.sh: where things are, what it takes to build and run a program over a library that rt writes,
# and the building of one in C. It looks, and says in one line what is missing; it installs nothing.
# The kit is for x86-64: rt runs there alone, and writes libraries for it.

here=$(cd "$(dirname "${BASH_SOURCE[0]}")" && pwd)
root=$(dirname "$here")
out=$root/target/oracle
# The C compiler, and the Debian packages that it and its C library come in.
compiler=gcc compiler_packages=(gcc libc6-dev)
script=$(basename "$(cd "$(dirname "$0")" && pwd)")/$(basename "$0")

fail() {
    echo "$script: $*" >&2
    exit 2
}

make_folder() { # FOLDER
    mkdir -p "$1" 2>/dev/null || fail "the folder $1 cannot be made"
}

make_folder "$out"

need_rt() {
    [ "$(uname -m)" = x86_64 ] || fail "the Rattle kit is for x86-64, and this processor is $(uname -m)"
    command -v rt >/dev/null || fail "the command rt is missing; it comes with the Rattle kit"
}

need_compiler() {
    command -v "$compiler" >/dev/null || fail "the command $compiler is missing; Debian has it in the package ${compiler_packages[0]}"
    # gcc answers with a path where it has the file, and else with the bare name.
    [ -f "$("$compiler" -print-file-name=libc.a)" ] ||
        fail "$compiler has no C library to link statically; Debian has it in the package ${compiler_packages[1]}"
}

# Debian 12 has a current compiler under the name rustc-web; later releases have it as rustc.
web() {
    if dpkg-query -W rustc-web >/dev/null 2>&1 || apt-cache show rustc-web >/dev/null 2>&1; then echo -web; fi
}

# A rustc that can build for x86-64: the first at hand that has Rust's own library for it.
need_rustc() {
    local found library
    rust_target=x86_64-unknown-linux-gnu
    for found in rustc /usr/bin/rustc; do
        command -v "$found" >/dev/null || continue
        library=$("$found" --print target-libdir --target "$rust_target" 2>/dev/null) || continue
        if ls "$library"/libstd-*.rlib >/dev/null 2>&1; then
            rustc=$found
            return
        fi
    done
    command -v rustc >/dev/null || fail "the command rustc is missing; Debian has it in the package rustc$(web)"
    fail "rustc has no library for $rust_target; rustup target add $rust_target brings it, or Debian's rustc$(web) with libstd-rust$(web)-dev:amd64"
}

# The libraries for C, as target/staticlib/libCRATE.a. What rt makes a static library of is a crate of its own, CRATE_c, which exports CRATE's functions;
# its archive gets CRATE's name here.
prove_libraries() { # CRATE...
    local crate log
    need_rt
    make_folder "$root/target/staticlib"
    for crate in "$@"; do
        log=$out/$crate.log
        { : >"$log"; } 2>/dev/null || fail "the file $log cannot be written"
        (cd "$root/crates/${crate}_c" && rt lib) >"$log" 2>&1 || fail "$crate is not proved; $log says why"
        cp "$root/crates/${crate}_c/out/lib${crate}_c.a" "$root/target/staticlib/lib$crate.a" || fail "the library lib$crate.a cannot be copied"
    done
}

compile() { # PROGRAM SOURCE CRATE...
    local program=$1 source=$2
    shift 2
    "$compiler" -std=c99 -O2 -static -Wall -Wextra -Wpedantic -I "$root/include" -o "$program" "$source" \
        -L "$root/target/staticlib" "${@/#/-l}" || fail "$source does not compile; the lines above say why"
}

# Runs a program that says by its exit status whether all came out right.
run_right() { # SOURCE COMMAND WORDS...
    local source=$1 status=0
    shift
    "$@" || status=$?
    case $status in
    0) return ;;
    126 | 127) fail "the program of $source cannot be run here" ;;
    esac
    echo "$script: $source did not come out right; its program ended with exit status $status" >&2
    exit 1
}
