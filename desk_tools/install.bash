# Sourced by ./walnut: `install PREFIX` and `bundle FILE.tar.gz`. What they install needs no toolchain, no sources and no
# cargo: only bash, coreutils, awk, grep and sed, and python3 for what shows, spells or draws.

# sum_of_sources: the first 16 digits of the sum of what is proved.
sum_of_sources() { sum_of crates.txt crates include | cut -c1-16; }

# installed_in PREFIX: the command, its programs, the library, the pages and the completion.
installed_in() {
    local share=$1/share/walnut page
    need programs library
    "$root/library" "$1" >/dev/null || return 1
    install -d "$1/bin" "$1/libexec/walnut" "$share/desk_tools/eyes" "$share/bindings/python/walnut" "$share/docs/slip" \
        "$1/share/man/man1" "$1/share/man/man3" "$1/share/bash-completion/completions" &&
        install -m 755 "$root/walnut" "$root/desk" "$1/bin/" &&
        install -m 755 "${programs[@]/#/$bin/}" "$1/libexec/walnut/" &&
        install -m 644 "$root"/desk_tools/*.bash "$share/desk_tools/" &&
        install -m 644 "$root"/desk_tools/eyes/*.py "$share/desk_tools/eyes/" &&
        install -m 644 "$root"/bindings/python/walnut/{__init__.py,py.typed} "$share/bindings/python/walnut/" &&
        install -m 644 "$root/answers.txt" "$share/" &&
        install -m 644 "$root"/docs/{DESK,FORMATS}.md "$share/docs/" &&
        install -m 644 "$root"/docs/slip/* "$share/docs/slip/" &&
        install -m 644 "$root/desk_tools/completion" "$1/share/bash-completion/completions/walnut" || return 1
    for page in 1 3; do
        install -m 644 "$root/desk_tools/walnut.$page" "$1/share/man/man$page/" || return 1
    done
    version_line >"$share/installed"
}

# not_installed VERB: ends the run if this command is an installed one, which has no sources to install from.
not_installed() {
    [ ! -f "$root/installed" ] || { say "this walnut is installed: run $1 in the folder of the sources"; exit 2; }
}

install_at() {
    [ $# -eq 1 ] || wrong "install takes 1 name, not $#"
    named "$@"
    not_installed install
    local prefix
    prefix=$(realpath -m -- "$1")
    installed_in "$prefix" || { say "'$1' could not be written (see above): choose another folder, or make room"; exit 1; }
    put "$(version_line)" "installed in $prefix; the command is $prefix/bin/walnut"
}

bundle() {
    [ $# -eq 1 ] || wrong "bundle takes 1 name, not $#"
    named "$@"
    not_installed bundle
    place "$1"
    beside_place "$1"
    # The exit trap removes this folder, so it is not a local variable.
    folder=$(mktemp -d) || exit 1
    trap 'rm -rf -- "$beside" "$folder"' EXIT
    # pkg-config finds the unpacked library from the place of its own file. It escapes the spaces of that place itself,
    # so the file must have no quotes.
    if ! { installed_in "$folder/walnut" &&
        sed -i 's|^prefix=.*|prefix=${pcfiledir}/../..|; s|"||g' "$folder/walnut/lib/pkgconfig/walnut.pc" &&
        tar -czf "$beside" --owner=0 --group=0 -C "$folder" walnut &&
        mv -fT -- "$beside" "$1"; }; then
        say "'$1' could not be written (see above), and is not changed: choose another place, or make room"
        exit 1
    fi
    put "$(version_line)" "$1 has $(stat -c %s -- "$1") bytes; unpack it anywhere and run walnut/bin/walnut"
}
