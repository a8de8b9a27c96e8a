# Sourced by ./walnut: `judge --all` and `shorten --all`, on every slip of a folder, and `judge` of several signatures.
# One run of a program takes many slips. A bad slip is reported and does not stop the run.

# The last part of a pipe runs in this shell, so that it can set variables. This needs no /dev/fd.
shopt -s lastpipe

# `part` has the files of the slips by KIND/NAME, and `lacks` what a slip lacks by NAME. The other tables keep texts,
# reasons and lengths of keys that were already found, and count the refusals.
declare -A part=() lacks=() texts=() reasons=() key_bytes=() refusals=()
names=()

# The counts of the summary.
slips=0 opened=0 unread=0 unwritten=0 unjudged=0 before=0 after=0 ended=yes on_disk=yes left_out=no

# progress shows how many slips are done, once a second after the first second. no_progress removes the line. Both act
# on a terminal only.
progress() {
    [ "$SECONDS" -gt "$shown" ] && [ -t 2 ] || return 0
    shown=$SECONDS
    printf '%s: %s of %s slips\033[K\r' "$name" "$slips" "${#names[@]}" >&2
}
no_progress() { [ ! -t 2 ] || printf '\033[K' >&2; }

# quoted TEXT: sets $quoted to the text in quotes. A line end in the text does not end the line.
quoted() {
    case $1 in
        *[[:cntrl:]]*) quoted=${1@Q} ;;
        *) quoted="'$1'" ;;
    esac
}

# ---- the slips of the folder

# listed: finds the files of the slips, and sets $names. The ends of the names may have capitals. If two files differ
# only in capitals, the one in small letters is used.
listed() {
    local LC_ALL=C each end kind slip found=() all
    shopt -s nullglob nocaseglob
    all=("$folder"/*.key "$folder"/*.digest "$folder"/*.sig)
    shopt -u nullglob nocaseglob
    for each in "${all[@]}"; do
        end=${each##*.}
        kind=${end,,} slip=${each##*/}
        slip=${slip%.*}
        [ "$kind" = key ] || found+=("$slip")
        if [ -z "${part[$kind/$slip]-}" ]; then
            part[$kind/$slip]=$each
        elif [ "$end" = "$kind" ]; then
            leave_out "${part[$kind/$slip]}"
            part[$kind/$slip]=$each
        else
            leave_out "$each"
        fi
    done
    [ ${#found[@]} -eq 0 ] || printf '%s\0' "${found[@]}" | LC_ALL=C sort -zu | mapfile -d '' -t names
}

leave_out() {
    quoted "$1"
    say "$quoted is left out: another file differs from it only in capitals. Rename or remove one of them"
    left_out=yes
}

# lacking NAME: sets $lack to what the slip lacks, or to nothing.
lacking() {
    local kind file
    lack=
    for kind in key digest sig; do
        file=${part[$kind/$1]-}
        [ -n "$file" ] || [ "$kind" != key ] || file=$key
        [ ! -f "$file" ] || continue
        quoted "${file:-$folder/$1.$kind}"
        if [ -z "$file" ]; then
            lack+="; $quoted is missing"
            [ "$kind" != key ] || lack+=", and no KEY is given"
        else
            lack+="; $quoted is not a regular file"
        fi
    done
    lack=${lack#; }
}

# ---- what is said about a slip

# line_of NAME ANSWER WORDS: sets $line to the line of a slip or a signature. A line end in the name does not end it.
line_of() {
    case $1 in
        *[[:cntrl:]]*) line="${1@Q}: $2: $3" ;;
        *) line="$1: $2: $3" ;;
    esac
}

# told NAME ANSWER WORDS: prints the line of a slip.
told() {
    local line
    no_progress
    line_of "$@"
    put "$line"
}

# The texts of all answers, from answers.txt.
read_texts() {
    local number text rest
    grep '^[0-9]* |' "$root/answers.txt" | while IFS='|' read -r number text rest; do
        text=${text# }
        texts[${number%% *}]=${text% }
    done
}

# reason ANSWER KEY DIGEST SIGNATURE: sets $reason to the file that a refusal is about, and to the place in it.
reason() {
    local file many=s
    case $1 in
        [1-7] | 26)
            reason=${reasons[$1/$2]-} file=$2
            [ -z "$reason" ] || return 0
            place_in_key "$1" "$2"
            ;;
        8) file=$3 && place_in_digest "$2" "$3" ;;
        9 | 1[0-3]) file=$4 && place_in_word "$1" "$4" ;;
        *)
            quoted "$2" && reason="the key is $quoted"
            quoted "$3" && reason+=", the digest is $quoted"
            quoted "$4" && reason+=", and the signature is $quoted"
            return 0
            ;;
    esac || bytes=0 text=no place="it is not there now"
    quoted "$file"
    [ "$bytes" -ne 1 ] || many=
    reason="$quoted, $bytes byte$many; $place"
    if [ "$bytes" -ge 4 ] && [ "$text" = yes ]; then
        reason+="; it looks like hexadecimal text: 'xxd -r -p' converts such text to bytes"
    fi
    case $1 in [1-7] | 26) reasons[$1/$2]=$reason ;; esac
}

# place_in_digest KEY DIGEST: a refused digest.
place_in_digest() {
    [ -n "${key_bytes[$1]-}" ] || key_bytes[$1]=$(size "$1") || key_bytes[$1]=0
    place="this key needs a digest of ${digest_bytes[${key_bytes[$1]}]-$(digest_sizes)} bytes"
    in_bytes read_bytes "$2" 65
}

# unread_of FILE..: sets $reason to the files that may not be read. The program has said why it could not read a file.
unread_of() {
    local file
    reason=
    for file in "$@"; do
        quoted "$file"
        [ -r "$file" ] || reason+="; you may not read $quoted"
    done
    reason=${reason#; }
    [ -n "$reason" ] || reason="a file could not be read, see the messages"
}

# slip NAME: reports a slip. If it lacks nothing, the program's lines about it come on standard input.
slip() {
    local line files=("${part[key/$1]-$key}" "${part[digest/$1]-}" "${part[sig/$1]-}")
    reason=${lacks[$1]-}
    if [ -n "$reason" ]; then
        line='no answer'
    else
        IFS= read -r line || return 1
    fi
    case $line in
        'no answer')
            [ -n "$reason" ] || unread_of "${files[@]}"
            unread=$((unread + 1))
            ;;
        'not written')
            [ "$verb" = shorten ] || return 1
            reason="see the messages" opened=$((opened + 1)) unwritten=$((unwritten + 1))
            ;;
        *)
            is_answer "$line" || return 1
            if [ "$answer" = 0 ]; then
                "opened_$verb" "$1" || return 1
                slips=$((slips + 1)) opened=$((opened + 1))
                return 0
            fi
            refusals[$answer]=$((${refusals[$answer]-0} + 1))
            reason "$answer" "${files[@]}"
            reason="${texts[$answer]-}: $reason"
            ;;
    esac
    slips=$((slips + 1))
    told "$1" "$line" "$reason"
    "shut_$verb" "$1"
}

# ---- the two commands: add_.. adds the arguments of a slip, run_.. runs the program, opened_.. reports a slip that
# opened, and shut_.. says more about another one.

# add ARGUMENT..: adds arguments to the next run, and to $length the bytes that the system counts for them. Each has an
# end and a pointer.
add() {
    arguments+=("$@")
    in_bytes weigh "$@"
}
weigh() {
    local IFS= all
    all="$*"
    length=$((length + ${#all} + 9 * $#))
}

# Slips are judged inside their folder, $there, where names are shorter, so that one run takes more slips. $inside is
# what the names lose, and $its_key is KEY as it is named there. If KEY has no other name, the names stay as they are.
go_inside() {
    there=$folder inside=$folder/ its_key=$key
    case $folder in /*) ;; *) there=./$folder ;; esac
    case $key in
        '' | /*) ;;
        *) its_key=$PWD/$key && [ "$its_key" -ef "$key" ] || there=. inside= its_key=$key ;;
    esac
}
add_judge() {
    local own=${part[key/$1]-}
    own=${own#"$inside"}
    add "${own:-$its_key}" "${part[digest/$1]#"$inside"}" "${part[sig/$1]#"$inside"}"
}
run_judge() {
    local said status
    { said=$(cd -P "$there" && exec "$bin/slips" "$@" 2>&1 >&3 3>&-); status=$?; } 3>&1
    [ -z "$said" ] || printf '%s\n' "$said" | as_given >&2
    return "$status"
}

# as_given: the program's messages, with names as the user gave them.
as_given() {
    local line
    while IFS= read -r line; do
        case $line in
            "$its_key: "*) line=$key${line#"$its_key"} ;;
            /*) ;;
            *) line=$inside$line ;;
        esac
        printf '%s\n' "$line"
    done
}
opened_judge() { told "$1" 'answer 0' 'the slip is good'; }
shut_judge() { :; }

# If NAME.new may not be replaced, the program gets a name that it cannot write.
add_shorten() {
    local new=$folder/$1.new
    fault_of "$new" "${part[key/$1]-$key}" "${part[digest/$1]}" || { say "$fault"; new+=/.; }
    add "${part[key/$1]-$key}" "${part[digest/$1]}" "${part[sig/$1]}" "$new"
}
run_shorten() { "$bin/new_word" shorten "$beside" "${numbers[@]}" "$@" 2>"$said"; }
opened_shorten() {
    local line
    IFS= read -r line && [[ $line =~ $sizes ]] || return 1
    before=$((before + BASH_REMATCH[3])) after=$((after + BASH_REMATCH[4]))
}
shut_shorten() {
    quoted "$1.new"
    [ ! -f "$folder/$1.new" ] || say "an older $quoted is still there: do not send it" || :
}

# some NAME..: runs the program once on its arguments, those of these slips that lack nothing, and reports on all slips,
# in order.
some() {
    local each line done=0
    # The program's exit status comes as a last line, because `wait` of bash 5.2 sometimes gives a wrong status.
    {
        [ ${#arguments[@]} -eq 0 ] || "run_$verb" "${arguments[@]}" </dev/null
        echo "ended $?"
    } | {
        for each in "$@"; do
            slip "$each" || break
            done=$((done + 1))
            progress
        done
        IFS= read -r line && [ "$line" = 'ended 0' ] || { ended=no; cat >/dev/null; }
    }
    no_progress
    # The names that cannot be written were reported before the run.
    [ "$verb" = judge ] || grep -v '\.new/\.: ' -- "$said" >&2
    unjudged=$((unjudged + $# - done))
}

summary() {
    local refused=$((slips - opened - unread)) number
    put "$((slips + unjudged)) slips: $opened opened, $refused refused, $unread could not be read"
    [ "$verb" = judge ] ||
        put "of the $opened opened, $unwritten could not be written; the others had $before bytes and have $after"
    for number in $(printf '%s\n' "${!refusals[@]}" | sort -n); do
        put "refused with $number: ${refusals[$number]}"
        say_failed "$number"
        say_to_do "$number"
    done
    [ "$on_disk" = yes ] || say "the new files in '$folder' could not be saved to the disk: make room, and run it again"
    if [ "$unjudged" -ne 0 ] || [ "$ended" = no ]; then
        say "$unjudged slips were not judged: the program did not run to its end. $mend"
        exit 3
    fi
    [ $((unread + unwritten)) -eq 0 ] || { say "some files could not be read or written, see above"; exit 1; }
    [ "$on_disk,$left_out" = yes,no ] || exit 1
    [ "$refused" -eq 0 ] || exit 4
}

# most_bytes: the bytes of arguments that one run of a program takes. For judge it is the limit of the system, less the
# environment and room for one more slip. A shorter run of shorten says sooner what it did.
most_bytes() {
    local most
    [ "$verb" = judge ] || { echo 50000 && return; }
    most=$(getconf ARG_MAX 2>/dev/null) || most=131072
    # Linux takes at most 6 MB, also where the limit is larger
    [ "$most" -le 6291456 ] || most=6291456
    set -- $(env | wc -lc)
    echo $((most - 8 * $1 - $2 - 20000))
}

# every VERB PROGRAM FOLDER [KEY]: judges or shortens every slip of the folder.
every() {
    local some=() arguments=() length=0 most each
    verb=$1 folder=$3 key=${4-} shown=$((SECONDS + 1))
    if [ -f "$folder" ] && [ -d "$key" ]; then
        say "'$folder' and '$key' seem to be in the wrong order: give FOLDER first, and then KEY"
        exit 1
    fi
    if [ ! -d "$folder" ] || [ ! -r "$folder" ]; then
        say "'$folder' is not a readable folder: correct the name"
        exit 1
    fi
    if [ $# -eq 4 ] && { [ ! -f "$key" ] || [ ! -r "$key" ]; }; then
        say "'$key' is not a readable file: correct the name, or fetch the key again"
        exit 1
    fi
    need "$2"
    listed
    if [ ${#names[@]} -eq 0 ]; then
        say "'$folder' holds no NAME.digest and no NAME.sig: give the name of the folder with the slips"
        exit 1
    fi
    read_texts
    if [ "$verb" = judge ]; then go_inside; else to_write; fi
    most=$(most_bytes)
    for each in "${names[@]}"; do
        lacking "$each"
        if [ -n "$lack" ]; then lacks[$each]=$lack; else "add_$verb" "$each"; fi
        some+=("$each")
        if [ "$length" -gt "$most" ]; then
            some "${some[@]}"
            some=() arguments=() length=0
        fi
    done
    [ ${#some[@]} -eq 0 ] || some "${some[@]}"
    # The program does not wait until each file is on the disk. This line waits for all of them, before the summary.
    [ "$verb" = judge ] || sync -f -- "$folder" || on_disk=no
    summary
}

# to_write: a name beside the new files, and a file for the program's messages.
to_write() {
    beside_place "$folder/"
    said=$(mktemp) || exit 1
    trap 'rm -f -- "$beside" "$said"' EXIT
}

# ---- several signatures of one slip

# copies KEY DIGEST SIGNATURE..: ends the run with a line for each signature, in order. Standard error names each
# signature with its answer, and then says once for each answer what to do.
copies() {
    local files=("$@") lines line out number k status=0
    out=$("$bin/desk" "$@" </dev/null) || broken desk
    [ -n "$out" ] || unread
    mapfile -t lines <<<"$out"
    [ ${#lines[@]} -eq $(($# - 2)) ] || broken desk
    for line in "${lines[@]}"; do
        [ "$line" = 'no answer' ] || is_answer "$line" || broken desk
    done
    read_texts
    for k in "${!lines[@]}"; do
        copy "${lines[k]}" "$1" "$2" "${files[k + 2]}"
    done
    for number in $(printf '%s\n' "${!refusals[@]}" | sort -n); do
        is_of_copy "$number" && say "after answer $number: $(of_answer "$number" 3)"
    done
    [ "$status" != 0 ] || say "all ${#lines[@]} signatures are good"
    exit "$status"
}

# is_of_copy ANSWER: succeeds if the answer is about the signature. The other answers are about the key or the digest.
is_of_copy() {
    case $1 in
        [1-8] | 26) return 1 ;;
    esac
}

# copy LINE KEY DIGEST SIGNATURE: prints the line of a signature, says what was found, and sets $status. It reports a
# fault of the key or the digest only once. The program has already said why it could not read a file.
copy() {
    local line reason
    put "$1"
    if [ "$1" = 'no answer' ]; then
        quoted "$4"
        say "there is no answer for $quoted: correct its name, or fetch it again"
        status=1
        return
    fi
    is_answer "$1"
    if [ "$answer" = 0 ]; then
        line_of "$4" "$1" 'the slip is good'
        say "$line"
        return
    fi
    [ "$status" = 1 ] || status=4
    refusals[$answer]=$((${refusals[$answer]-0} + 1))
    if is_of_copy "$answer"; then
        reason "$answer" "${@:2}"
        line_of "$4" "$1" "${texts[$answer]}: $reason"
        say "$line"
    elif [ "${refusals[$answer]}" -eq 1 ]; then
        say_refusal about_slip "${@:2}"
    fi
}
