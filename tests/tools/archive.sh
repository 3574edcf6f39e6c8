# The archive that C links, as a script needs it; it runs in the repository's folder.
archive=target/staticlib/libpanel.a
# What the kit's compiler was given to make it: the bitcode, and the words of its command, one a line.
given=target/staticlib/panel.given
kit=$(cd "$(dirname "$(readlink -f "$(command -v rt)")")/.." && pwd -P)
tools=toolchain

# linked FOLDER NAME TO: links in TO to all that a folder has, but the file or folder of that name
linked() {
    local each
    mkdir -p "$3"
    for each in "$1"/*; do [ "${each##*/}" = "$2" ] || ln -s "$each" "$3/"; done
}

# own_kit FOLDER: the kit once more, by links, as FOLDER/kit. rt finds its kit by its own place, and shares what it keeps
# with other checkouts by a folder beside that: here FOLDER/rattle-kept, which is nobody else's.
own_kit() {
    linked "$kit" bin "$1/kit"
    linked "$kit/bin" rt "$1/kit/bin"
    rm "$1/kit/bin/rtlib.py"
    cp "$kit/bin/rt" "$kit/bin/rtlib.py" "$1/kit/bin/"
}

# staticlib CRATE ARCHIVE GIVEN: its archive by the kit, whose clang keeps a copy of what it is given in the folder GIVEN.
# Whoever looks at one call must have seen all of them, so a second call fails.
staticlib() (
    home=$(mktemp -d) || exit
    trap 'rm -rf "$home"' EXIT
    own_kit "$home"
    own=$home/kit/$tools
    rm "$own"
    linked "$kit/$tools" bin "$own"
    linked "$kit/$tools/bin" clang "$own/bin"
    rm -rf "$3"
    mkdir -p "$3"
    cat >"$own/bin/clang" <<CLANG
#!/usr/bin/env bash
set -eu -o noclobber
own='$home/kit' kit='$kit'
printf '%s\n' "\${@//"\$own"/"\$kit"}" >'$(realpath "$3")/words'
for word; do case \$word in *.bc) cp "\$word" '$(realpath "$3")/module.bc' ;; esac; done
exec '$kit/$tools/bin/clang' "\$@"
CLANG
    chmod +x "$own/bin/clang"
    (cd "crates/$1" && "$home/kit/bin/rt" lib) >"$3/log" 2>&1 </dev/null || { cat "$3/log" >&2; exit 1; }
    cp "crates/$1/out/lib$1.a" "$2"
)

# build_archive: proves and writes it where it is missing or older than the crates.
# Two tests may want it at a time: one waits for the other.
build_archive() (
    mkdir -p target/staticlib
    exec 9>target/archive.lock
    flock 9
    for made in $archive $given/module.bc; do
        [ -f $made ] && [ -z "$(find crates/*/src crates/*/specs crates/*/proofs crates.txt -newer $made -print -quit 2>/dev/null)" ] && continue
        # the libraries below first, which the kit's own rt may have from another checkout
        (cd crates/panel_c && rt lib) >target/staticlib/log 2>&1 </dev/null || { cat target/staticlib/log >&2; return 1; }
        staticlib panel_c $archive $given
        return
    done
)
