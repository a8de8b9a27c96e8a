# Sourced by an installed walnut. Its programs and the library stand beside it, and it builds nothing.
# The caller sets $root to the folder share/walnut, and $name.
self=walnut mend="Install walnut again, or tell the maintainers"
bin=$root/../../libexec/walnut
lib=$root/../../lib

need() {
    local each
    for each in "$@"; do
        [ "$each" != library ] || each=../../lib/libwalnut.so.1
        if [ ! -r "$bin/$each" ]; then
            echo "$name: '$bin/$each' is missing: install walnut again" >&2
            exit 3
        fi
    done
}
