# Debian's own tools, whatever else is on the PATH: a script sources this, says what it needs, and calls it in /usr/bin.

# need PACKAGE..: installs those of Debian's packages that are missing, and asks nothing.
need() {
    local package missing=() apt=()
    for package in "$@"; do
        [[ $(dpkg-query -W -f '${db:Status-Status}' "$package" 2>/dev/null) == installed* ]] || missing+=("$package")
    done
    [ ${#missing[@]} -ne 0 ] || return 0
    [ "$(id -u)" -eq 0 ] || apt=(sudo -n)
    # another installation may be going on: wait for it
    apt+=(env DEBIAN_FRONTEND=noninteractive apt-get -y -qq -o DPkg::Lock::Timeout=300)
    # a new machine has no list of packages, an old one an old list
    "${apt[@]}" update </dev/null >/dev/null || true
    "${apt[@]}" install --no-install-recommends "${missing[@]}" </dev/null >/dev/null || {
        printf 'cannot install from Debian: %s\n' "${missing[*]}" >&2
        return 1
    }
}

# second_cargo build, second_cargo test: the second program, with Debian's cargo, rustc and linker. From / and with an
# empty environment, since variables, ~/.cargo and the folders above may have settings of the user's own.
second_cargo() {
    need cargo rustc || return
    local here=$PWD
    (cd / && exec env -i PATH=/usr/bin:/bin CARGO_HOME="$here/target/cargo" RUSTC=/usr/bin/rustc \
        /usr/bin/cargo "$1" --quiet --release --offline \
        --manifest-path "$here/second/Cargo.toml" --target-dir "$here/target/second")
}
