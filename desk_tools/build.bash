# Sourced by ./walnut, ./library and the tests: proves and builds what a command needs, once for each state of the
# sources. `need NAME..` builds these programs in $bin. As the first name, `programs` stands for all programs.
# `library` stands for the libraries in $lib. The caller sets $root and $name.
bin=$root/target/bin
lib=$root/target/library
log=$root/target/walnut.log

# The programs that the commands run, from their section of crates.txt.
programs=($(awk -F: '/^#/ { here = /^# Programs that \.\/walnut runs/; next } here && NF > 1 { print $1 }' \
    "$root/crates.txt"))
if [ ${#programs[@]} -eq 0 ]; then
    echo "crates.txt has no section '# Programs that ./walnut runs'" >&2
    return 1
fi

# ways_up CRATE..: a line for each crate of this repository that these crates use, and for these: the number of crates on
# the longest way from it up to one of these, its name, and the crates that it uses.
ways_up() {
    awk -v crates="$*" '
        { sub(/#.*/, "") }
        split($0, parts, ":") > 1 { sub(/ .*/, "", parts[1]); uses[parts[1]] = parts[2] }
        function rise(one, way,    names, k, n) {
            if (!(one in uses) || longest[one] >= way || way > NR) return
            longest[one] = way
            n = split(uses[one], names, " ")
            for (k = 1; k <= n; k++) rise(names[k], way + 1)
        }
        END {
            n = split(crates, names, " ")
            for (k = 1; k <= n; k++) rise(names[k], 1)
            for (one in longest) print longest[one], one, uses[one]
        }' "$root/crates.txt"
}
used_by() { ways_up "$@" | cut -d ' ' -f 2 | LC_ALL=C sort; }

# For each need: a sum of its sources, a sum of what was built, and how to build it.
sum_of() { (cd "$root" && find "$@" -name out -prune -o -type f -print0 | LC_ALL=C sort -z | xargs -0 sha256sum | sha256sum); }
sources_of() {
    local crates
    case $1 in
        library) mapfile -t crates < <(used_by walnut); set -- include desk_tools/build.bash ;;
        *) mapfile -t crates < <(used_by "$1"); set -- ;;
    esac
    sum_of crates.txt "$@" "${crates[@]/#/crates/}"
}
made_of() {
    case $1 in
        library) (cd "$lib" && cat libwalnut.so libwalnut.a walnut.h | sha256sum) 2>/dev/null ;;
        *) sha256sum 2>/dev/null <"$bin/$1" ;;
    esac
}
version() { awk -v name="WALNUT_VERSION_$1" '$1 == "#define" && $2 == name { print $3 }' "$root/include/walnut.h"; }
make_library() {
    local so
    so=libwalnut.so.$(version MAJOR)
    proving walnut && mkdir -p "$lib" &&
        cp "$root/crates/walnut/out/libwalnut.a" "$root/include/walnut.h" "$lib/" &&
        gcc -shared -o "$lib/$so" -Wl,-soname,"$so" -Wl,--whole-archive "$lib/libwalnut.a" -Wl,--no-whole-archive &&
        ln -sfn "$so" "$lib/libwalnut.so"
}

# copy_sources N: makes N copies of the sources in target/room. Only one run of rt works in a crate and the crates below
# it at a time, so runs that go on side by side need a copy each. What one copy built, rt gives to the others.
copy_sources() (
    for ((number = 0; number < $1; number++)); do
        mkdir -p "$root/target/room/$number/crates" && cd "$root/target/room/$number" || exit 1
        find crates -mindepth 2 -maxdepth 2 ! -name out -exec rm -rf {} +
        tar -C "$root" --exclude='./crates/*/out' -cf - ./crates.txt ./crates | tar -xf - || exit 1
    done
)

# alone CRATE ROOM: proves and builds one library in a copy of the sources, if the crates that it uses are built.
alone() {
    mkdir -p "$root/target/alone" && cd "$root/target/room/$2/crates/$1" &&
        rt lib "$1" >"$root/target/alone/$1" 2>&1 </dev/null
}

# said_of CRATE: what rt said about this crate, with the file names as they are in the repository.
said_of() {
    local text copy
    text=$(sed "s|^\./|crates/$1/|" "$root/target/alone/$1")
    for copy in "$root"/target/room/*/; do text=${text//"$copy"/}; done
    printf '%s\n' "${text//"$root/"/}"
}

# archive NAME: proves and builds a static library, if the crates that it uses are built.
archive() { cd "$root/crates/$1" && rt lib "$1" >"$root/target/alone/$1" 2>&1 </dev/null; }

# program NAME: proves and builds a program, if the crates that it uses are built. rt runs what it built, so the program
# runs once, with no arguments and no input.
program() {
    local made=$root/crates/$1/out/$1
    rm -f "$made"
    cd "$root/crates/$1" && rt run "$1" >"$root/target/alone/$1" 2>&1 </dev/null
    [ -x "$made" ] && mkdir -p "$bin" && cp "$made" "$bin/$1.new" && mv "$bin/$1.new" "$bin/$1"
}

# counted CRATE: on a terminal, one line counts the crates. This crate is the next one.
counted() {
    started=$((started + 1))
    [ -t 2 ] || return 0
    local left=
    [ ${#proved[@]} -eq 0 ] || left=$(((SECONDS - began) * (crates - ${#proved[@]}) / ${#proved[@]} / 60 + 1))
    [ -z "$left" ] || left=", about $left minute$([ "$left" -eq 1 ] || echo s) left"
    printf '\r\033[K%s: proving %s of %s: %s%s' "$name" "$started" "$crates" "$1" "$left" >&2
}

# startable CRATE: succeeds if the crate was not started, and all that it uses in this repository is proved.
startable() {
    local each
    [ -z "${begun[$1]-}" ] || return 1
    for each in ${uses[$1]}; do
        [ -z "${uses[$each]+listed}" ] || [ -n "${proved[$each]-}" ] || return 1
    done
}

# line_within SECONDS: sets $line to the next line of $ends, if one begins in this time. The time may run out within a
# line; what is left of it is then read too.
line_within() {
    local rest
    read -r -t "$1" line <&7 && return
    [ -n "$line" ] || return 1
    read -r rest <&7
    line+=$rest
}

# next_end: waits until a crate of $begun ends, and sets $each and $status. A process that is killed writes no line to
# $ends. It is found when no line comes for a second, and counts as one that ended with 137.
next_end() {
    local line
    until line_within 1; do
        for each in "${!begun[@]}"; do
            [ -n "${proved[$each]-}" ] || kill -0 "${begun[$each]}" 2>/dev/null && continue
            # a process that ended just before has left its line
            line_within 0.1 || line="$each 137"
            break 2
        done
    done
    each=${line% *} status=${line#* }
}

# prove_used: proves the crates of $uses, as many at a time as there are cores. A crate starts as soon as all that it uses
# is proved. The crate with the longest way up to the crates that are wanted comes first. The first crate that is not
# proved ends this. What rt says goes to the log.
prove_used() {
    local -A begun=() room=()
    local each cores running=0 status=0 ends=$root/target/alone/ends free=()
    cores=${RT_JOBS:-$(nproc)}
    for ((each = 0; each < cores; each++)); do free+=("$each"); done
    copy_sources "$cores" || return 1
    mkdir -p "${ends%/*}" && rm -f "$ends" && mkfifo "$ends" && exec 7<>"$ends" || return 1
    while [ "$status" -eq 0 ]; do
        for each in "${order[@]}"; do
            [ "$running" -lt "$cores" ] || break
            startable "$each" || continue
            counted "$each"
            room[$each]=${free[0]} free=("${free[@]:1}")
            { alone "$each" "${room[$each]}"; echo "$each $?" >&7; } 9>&- &
            begun[$each]=$! running=$((running + 1))
        done
        [ "$running" -gt 0 ] || break
        next_end
        said_of "$each" >>"$log"
        [ "$status" -le 128 ] || echo "$each: the process that proves it was killed: run the command again" >>"$log"
        proved[$each]=1 running=$((running - 1)) free+=("${room[$each]}")
    done
    wait
    exec 7>&-
    return "$status"
}

# proving CRATE..: proves what these crates use, and then builds each of them: programs, or the one library.
proving() {
    local -A uses=() proved=()
    local order=() way each names crates started=0 began=$SECONDS status=0 made
    while read -r way each names; do
        [ "$way" -eq 1 ] || { order+=("$each"); uses[$each]=$names; }
    done < <(ways_up "$@" | sort -rn)
    crates=$((${#order[@]} + $#))
    : >"$log"
    prove_used || status=$?
    for each in "$@"; do
        [ "$status" -eq 0 ] || break
        counted "$each"
        made=program
        [ "$each" != walnut ] || made=archive
        ("$made" "$each") 9>&- || status=$?
        said_of "$each" >>"$log"
        proved[$each]=1
    done
    [ ! -t 2 ] || printf '\r\033[K' >&2
    return "$status"
}

# current NEED: succeeds if what is built was built from the present sources.
current() { [ "$(cat "$root/target/walnut-$1.stamp" 2>/dev/null)" = "$(sources_of "$1"; made_of "$1")" ]; }

# build NEED..: only one build runs at a time. What all programs use is proved together, so that crates are proved side
# by side.
build() {
    mkdir -p "$root/target" && exec 9>"$root/target/walnut.lock" && flock 9 || return 1
    local each behind=() checked=() before=()
    for each in "$@"; do
        current "$each" && continue
        behind+=("$each") before+=("$(sources_of "$each")")
        [ "$each" = library ] || checked+=("$each")
    done
    [ ${#behind[@]} -gt 0 ] || return 0
    echo "$name: proving and building: ${behind[*]}; this takes a few minutes, once" >&2
    [ ${#checked[@]} -eq 0 ] || proving "${checked[@]}" || return 1
    [[ " ${behind[*]} " != *" library "* ]] || make_library || return 1
    for each in "${!behind[@]}"; do
        { echo "${before[each]}"; made_of "${behind[each]}"; } >"$root/target/walnut-${behind[each]}.stamp"
    done
}

need() {
    local each behind=()
    [ "$1" != programs ] || set -- "${programs[@]}" "${@:2}"
    for each in "$@"; do
        current "$each" || behind+=("$each")
    done
    [ ${#behind[@]} -gt 0 ] || return 0
    if ! build "${behind[@]}"; then
        tail -n 5 "$log" >&2 2>/dev/null
        echo "$name: '${behind[*]}' is not proved or not built, so there is no answer. All lines of the prover are in" \
            "'$log'. Check that rt is installed; 'bash .ci/run' shows what fails" >&2
        exit 3
    fi
    exec 9>&-
}
