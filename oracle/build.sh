# Sourced by each script here but need.sh, and by those of bench and campaign: the packages, the workspace in target/oracle/crates, and the
# builds in it. It installs the Debian packages that are missing. The extract's folder is the script's first argument.

source "$(dirname "${BASH_SOURCE[0]}")/need.sh"
folder=${1:-$root/../shared/docs/src}
crates=$out/crates

as_root() {
    if [ "$(id -u)" = 0 ]; then "$@"; else sudo "$@"; fi
}

install_missing() { # PACKAGE...
    local missing=() package
    for package in "$@"; do
        dpkg-query -W -f '${db:Status-Status}\n' "$package" 2>/dev/null | grep -qx installed || missing+=("$package")
    done
    [ ${#missing[@]} -gt 0 ] || return 0
    echo "$script: installing ${missing[*]}"
    as_root apt-get update -qq
    as_root env DEBIAN_FRONTEND=noninteractive apt-get install -qq --no-install-recommends "${missing[@]}" >"$out/apt.log" 2>&1 ||
        fail "apt-get could not install them ($out/apt.log says why)"
}

# The crates that the extract leans on, and what compiles them.
install_rust() {
    command -v apt-get >/dev/null || fail "the crates come as Debian packages, and there is no apt-get here"
    install_missing gcc libc6-dev librust-smallvec-dev librust-hashbrown-dev librust-thiserror-dev
    if command -v cargo >/dev/null && command -v rustc >/dev/null; then
        cargo=cargo rustc=rustc
    else
        install_missing "rustc$(web)" "cargo$(web)"
        cargo=/usr/bin/cargo rustc=/usr/bin/rustc
    fi
}

# glam's own text where this Debian has a package of it (Debian 12 has none), else the stand-in.
lay_glam() {
    if apt-cache show librust-glam-dev >/dev/null 2>&1; then install_missing librust-glam-dev; fi
    local found
    found=$(ls -d /usr/share/cargo/registry/glam-[0-9]* 2>/dev/null | tail -n 1 || true)
    if [ -n "$found" ]; then
        cp -r "$found" "$crates/glam"
        glam=$(basename "$found")
    else
        cp -r "$here/glam" "$crates/glam"
        glam="our stand-in for glam only, whose own text is not at hand"
    fi
}

# A crate of the original: the extract's three files as they are, among our stand-ins.
lay_polyanya() { # NAME
    local crate=$crates/$1
    cp -r "$here/polyanya" "$crate"
    sed -i "s/^name = \"polyanya\"$/name = \"$1\"/" "$crate/Cargo.toml"
    mkdir "$crate/extract"
    cp "$folder/lib.rs" "$folder/helpers.rs" "$crate/src/"
    cp "$folder/instance.rs" "$crate/extract/"
    # lib.rs takes its documentation from a README that is not in the extract.
    touch "$crate/README.md"
}

# The seven lines of edges_between that send a triangle elsewhere first (848 to 854 of the extract's instance.rs).
triangle_call='        if polygon.vertices.len() == 3 {
            if let Some(successors) =
                self.edges_between_triangle(node, polygon, target_layer, left_vertex_index)
            {
                return successors;
            }
        }'

# A second crate of the original, without those lines: the general walk for triangles too, as document 01 has it.
lay_general_walk() {
    lay_polyanya polyanya_general_walk
    local call instance=$crates/polyanya_general_walk/extract/instance.rs
    call=$(grep -nF 'self.edges_between_triangle(' "$instance" | cut -d : -f 1 || true)
    [[ $call =~ ^[0-9]+$ ]] || fail "instance.rs does not call edges_between_triangle exactly once (lines:" ${call:-none}")"
    [ "$(sed -n "$((call - 2)),$((call + 4))p" "$instance")" = "$triangle_call" ] ||
        fail "the lines about line $call of instance.rs are not the call that should be cut"
    sed -i "$((call - 2)),$((call + 4))d" "$instance"
}

# Laid anew each time, so that what is built is what is there now.
lay_workspace() {
    local file
    for file in lib.rs helpers.rs instance.rs; do
        [ -f "$folder/$file" ] || fail "no $file in $folder, where the extract should be"
    done
    rm -rf "$crates"
    mkdir -p "$crates/.cargo"
    cp -r "$here/Cargo.toml" "$here/rstar" "$here/geo" "$here/harness" "$crates/"
    cp "$root/include/cart.rs" "$crates/harness/src/bin/compare/"
    lay_glam
    lay_polyanya polyanya
    lay_general_walk
    printf '%s\n' '[source.crates-io]' 'replace-with = "debian"' '[source.debian]' \
        'directory = "/usr/share/cargo/registry"' >"$crates/.cargo/config.toml"
}

build() { # CARGO ARGUMENTS
    (cd "$crates" && RUSTC=$rustc CARGO_TARGET_DIR=$out/cargo "$cargo" build --quiet --offline --release "$@")
}

# A program of the workspace over the libraries of these crates; `program` is where it is.
build_linked() { # PROGRAM CRATE...
    prove_libraries "${@:2}"
    STATICLIB=$root/target/staticlib build --target x86_64-unknown-linux-gnu --bin "$1"
    program=$out/cargo/x86_64-unknown-linux-gnu/release/$1
}

# The module that a library is compiled from, kept as target/oracle/CRATE.bc: rt hands it to the kit's clang and then takes it away. So the kit's folder is
# laid once more, all of it by links but for rt, which goes by the folder that it stands in, and for a clang that keeps what it compiles.
keep_module() { # CRATE
    local laid=$out/kit/laid kit path
    need_rt
    kit=$(dirname "$(dirname "$(readlink -f "$(command -v rt)")")")
    clang=$kit/toolchain/bin/clang
    rm -rf "$out/kit" "$out/$1.bc"
    mkdir -p "$laid/bin" "$laid/toolchain/bin"
    cp "$kit/bin/rt" "$kit/bin/rtlib.py" "$laid/bin/"
    printf '%s\n' '#!/bin/sh' "cp module.bc '$out/$1.bc'" "exec '$clang' \"\$@\"" >"$laid/toolchain/bin/clang"
    chmod +x "$laid/toolchain/bin/clang"
    for path in $(cd "$kit" && ls -d ./* bin/* toolchain/* toolchain/bin/*); do
        [ -e "$laid/$path" ] || ln -s "$kit/$path" "$laid/$path"
    done
    PATH=$laid/bin:$PATH prove_libraries "$1"
    rm -rf "$out/kit"
    [ -f "$out/$1.bc" ] || fail "$kit gave no module of $1"
}

# A program that stands in a folder of its own, over the harness and the library cart_c.
build_beside() { # FOLDER
    install_rust
    lay_workspace
    cp -r "$root/$1/src" "$crates/harness/src/bin/$1"
    build_linked "$1" cart_c
}

# Every instruction of a run, counted one by one.
instructions() { # PROGRAM WORDS...
    install_missing valgrind >&2
    valgrind --tool=callgrind --callgrind-out-file=/dev/null "$@" 2>&1 >/dev/null | sed -n 's/^.* Collected : //p'
}
