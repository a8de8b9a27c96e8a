# Sourced by ./walnut: the messages about a refusal. They say what failed, in which file, and what a person can do.
# These functions do not decide the answer. The programs have given it before.

# For each length of a key file: the length of its digest, and the number of elements of its field.
declare -A digest_bytes=([83]=32 [128]=64) elements=([83]=32 [128]=256)

# The bytes of a key shelf, of each of its slots, and of all eight.
shelf_bytes=1036 slot_bytes=129 slots_bytes=1032

say() { printf '%s: %s\n' "$name" "$*" >&2; }

# count NUMBER THING: '1 letter', '2 letters'
count() { if [ "$1" -eq 1 ]; then echo "1 $2"; else echo "$1 $2s"; fi; }

# say_failed ANSWER says what failed. say_to_do ANSWER says what a person can do. Both texts are from answers.txt.
of_answer() { awk -F ' *[|] *' -v n="$1" -v column="$2" '$1 == n { print $column }' "$root/answers.txt"; }
say_failed() { say "$(of_answer "$1" 2)"; }
say_to_do() { say "$(of_answer "$1" 3)"; }

# ---- what a file looks like; a file that is not regular has no size here, and gets no message

size() { [ -f "$1" ] && stat -L -c %s -- "$1"; }

# first_two FILE [PLACE]: the number in two bytes of the file, at a place or at its beginning.
first_two() {
    set -- $(od -An -tu1 -j"${2-0}" -N2 -- "$1")
    echo $((${1:-0} * 256 + ${2:-0}))
}

joined() {
    local all
    all=$(printf ' or %s' "$@")
    echo "${all# or }"
}
key_sizes() { joined $(printf '%s\n' "${!digest_bytes[@]}" | sort -n); }
digest_sizes() { joined $(printf '%s\n' "${digest_bytes[@]}" | sort -n); }

# word_bytes LETTERS, moves_bytes MOVES: the bytes of a word file and of a move list.
word_bytes() { echo $((2 + ($1 + 1) / 2)); }
moves_bytes() { echo $((2 + 3 * $1)); }

# stored_bytes LETTERS: the bytes of a stored form. sign_bytes and generator_bytes give the bytes of its two rows.
sign_bytes() { echo $((($1 + 7) / 8)); }
generator_bytes() { echo $(((3 * $1 + 7) / 8)); }
stored_bytes() { echo $((6 + ($1 + 7) / 8 + (3 * $1 + 7) / 8)); }

# as_stated BYTES FILE: succeeds if the file has the length that its first two bytes state. The function BYTES gives the
# length for their number.
as_stated() { local n; n=$(size "$2") && [ "$n" -ge 2 ] && [ "$n" -eq "$("$1" "$(first_two "$2")")" ]; }

is_key() { local n; n=$(size "$1") && [ -n "${digest_bytes[$n]-}" ]; }
is_digest() { local n; n=$(size "$1") && [[ " ${digest_bytes[*]} " == *" $n "* ]]; }
is_word() { as_stated word_bytes "$1"; }
is_moves() { as_stated moves_bytes "$1"; }
is_stored() { as_stated stored_bytes "$1" && [ "$(first_two "$1" 2)" -eq "$(sign_bytes "$(first_two "$1")")" ]; }

is_shelf() { local n; n=$(size "$1") && { [ "$n" -eq 0 ] || [ "$n" -eq "$shelf_bytes" ]; }; }

# is_hex FILE: succeeds if the file holds hexadecimal text and nothing else.
is_hex() {
    local n
    n=$(size "$1") && [ "$n" -ge 4 ] && [ "$n" -le 70000 ] || return 1
    LC_ALL=C grep -q '[0-9A-Fa-f]' -- "$1" && ! LC_ALL=C grep -qv '^[0-9A-Fa-f[:space:]]*$' -- "$1"
}

# hex_hint FILE..: says which of the files look like hexadecimal text.
hex_hint() {
    local file
    for file in "$@"; do
        if is_hex "$file"; then
            say "'$file' looks like hexadecimal text: pass the bytes themselves ('xxd -r -p' converts such text)"
        fi
    done
}

# kind_hint WANTED FILE: says if the file has the length of another kind of file. Kinds are key, stored, word and moves.
kind_hint() {
    local kind
    for kind in key stored word moves; do
        if [ "$kind" != "$1" ] && ! "is_$1" "$2" && "is_$kind" "$2"; then
            say "'$2' has the length of another kind of file; try: $self show $kind ${2@Q}"
        fi
    done
}

# ---- where a refused file is wrong. These functions set $place, in the words of `show`, and $bytes, the file's length.
# They fail if the file is not regular, or cannot be read. They start no process for a word, so that the places of
# thousands of words are found in seconds.

# in_bytes FUNCTION ARGUMENT..: runs a function in the locale C, where a character is a byte. The function has no
# standard error, because bash warns there, when it returns, if this machine does not have the user's locale.
in_bytes() { in_c "$@" 2>/dev/null; }
in_c() { local LC_ALL=C; "$@"; }

# read_bytes FILE MOST: sets $raw to the file's first bytes, at most so many, and $bytes to its length. $text says if
# the file begins with hexadecimal text. A variable cannot hold a zero byte: $raw has the byte 1 there, and $zero has its
# place. This function and the next run by in_bytes.
read_bytes() {
    local piece more=yes
    raw= zero=() text=no
    [ -f "$1" ] || return 1
    while [ "$more" = yes ] && [ ${#raw} -lt "$2" ]; do
        IFS= read -r -d '' -n $(($2 - ${#raw})) piece || more=no
        raw+=$piece
        if [ "$more" = yes ] && [ ${#raw} -lt "$2" ]; then
            zero[${#raw}]=yes
            raw+=$'\1'
        fi
    done <"$1" || return 1
    [[ ! ${raw:0:32} =~ ^[0-9A-Fa-f[:space:]]+$ ]] || text=yes
    bytes=${#raw}
    [ "$bytes" -lt "$2" ] || bytes=$(stat -L -c %s -- "$1")
}

# part_of FIRST BYTES: sets $part to these bytes of $raw, each as two hexadecimal digits.
part_of() {
    local k code
    part=
    for ((k = $1; k < $1 + $2 && k < ${#raw}; k++)); do
        code=0
        [ -n "${zero[k]-}" ] || printf -v code %d "'${raw:k:1}"
        printf -v code %02x $((code & 255))
        part+=$code
    done
}

# digits_of BITS FIRST BYTES: sets $digits to the eight numbers of BITS bits in these bytes of $raw.
digits_of() {
    local k part
    part_of "$2" "$3"
    digits=()
    for k in 7 6 5 4 3 2 1 0; do
        digits+=($((16#0$part >> $1 * k & (1 << $1) - 1)))
    done
}

# no_inverse MATRIX: succeeds if this matrix of $key, in hexadecimal digits, has no inverse. The program desk decides it:
# it judges the key with this matrix in both places, and answers 26 or, because there is no digest, 8.
no_inverse() {
    local line answer
    line=$(printf '%b' "$(sed 's/../\\x&/g' <<<"${key:0:2*first}$1${key:2*list:6}$1")" | "$bin/desk" 2>/dev/null)
    is_answer "$line" && [ "$answer" = 26 ]
}

# place_in_matrix ANSWER NAME FIRST BYTES: adds to $place what is wrong with the matrix in these bytes of $raw.
place_in_matrix() {
    local part last=$(($3 + $4 - 1))
    part_of "$3" "$4"
    if [ "$1" = 7 ] && ((16#0${part: -1} & 7)); then
        place+="; byte $last: ${part: -2}, whose last 3 bits, the filler after the matrix of $2, must be 0"
    elif [ "$1" = 26 ] && no_inverse "$part"; then
        place+="; bytes $3 to $last: the matrix of $2 has no inverse"
        [[ $part =~ [^0] ]] || place+="; it is zero"
    fi
}

# place_in_key ANSWER KEY: a refused key. For 26 the program desk must be there.
place_in_key() {
    [ "$1" != 26 ] || (need desk) || :
    in_bytes key_place "$@"
}

# key_place ANSWER KEY: a key has 3 bytes, the T-values, a matrix, the list and a matrix.
key_place() {
    local bits=5 size label missing= part key
    place=
    read_bytes "$2" 129 || return 1
    [ "$bytes" -ne 128 ] || bits=8
    size=$((7 * bits + 1))
    local first=$((3 + bits)) list=$((3 + bits + size)) second=$((6 + bits + size))
    case $1 in
        1) place="a key has $(key_sizes) bytes" ;;
        2) part_of 0 1 && place="byte 0 states $((16#0$part)) strands, not 8" ;;
        3)
            part_of 1 2
            place="bytes 1 and 2 state q = $((16#0$part)); a key of $bytes bytes needs q = ${elements[$bytes]-}"
            ;;
        4 | 5)
            digits_of "$bits" 3 "$bits"
            place="bytes 3 to $((first - 1)): the T-values of the labels 0 to 7 are ${digits[*]}"
            ;;
        6)
            digits_of 3 "$list" 3
            for label in 0 1 2 3 4 5 6 7; do
                [[ " ${digits[*]} " == *" $label "* ]] || missing+=" $label"
            done
            place="bytes $list to $((list + 2)): the list is ${digits[*]}; missing:$missing"
            ;;
        7 | 26)
            part_of 0 "$bytes" && key=$part
            place_in_matrix "$1" 'Pub(S)' "$first" "$size"
            place_in_matrix "$1" "Pub(S')" "$second" "$size"
            place=${place#; }
            [ -n "$place" ] ||
                place="bytes $first to $((list - 1)) or bytes $second to $((second + size - 1)): a matrix has no inverse"
            ;;
    esac
}

# The bytes with a half that is 7 or 15, for a pattern.
no_letters=$'\x07\x0f\x17\x1f\x27\x2f\x37\x3f\x47\x4f\x57\x5f\x67\x6f\x70-\x7f'
no_letters+=$'\x87\x8f\x97\x9f\xa7\xaf\xb7\xbf\xc7\xcf\xd7\xdf\xe7\xef\xf0-\xff'

# place_in_word ANSWER WORD: a refused word.
place_in_word() { in_bytes word_place "$@"; }
word_place() {
    local letters row byte part half=0 many=s
    place=
    read_bytes "$2" 5003 || return 1
    case $1 in
        9) place="a word has at least 2 bytes" ;;
        12)
            row=${raw:2}
            row=${row%%[$no_letters]*}
            byte=$((2 + ${#row}))
            part_of "$byte" 1
            [[ $part == [7f]* ]] || half=1
            place="byte $byte: $part, so the letter at place $((2 * byte - 4 + half)) has the code"
            place+=" $((16#0${part:half:1})); 7 and 15 are not letters"
            ;;
        13)
            part_of $((bytes - 1)) 1
            place="byte $((bytes - 1)): $part, whose low half is unused and must be 0"
            ;;
        *)
            part_of 0 2
            letters=$((16#0$part))
            [ "$letters" -ne 1 ] || many=
            place="its first two bytes state $letters letter$many, so it needs $((2 + (letters + 1) / 2)) bytes"
            ;;
    esac
}

# ---- which file an answer is about

# about_key ANSWER KEY: a refused key.
about_key() {
    place_in_key "$@" || return 0
    say "the key is '$2', $(count "$bytes" byte); $place; for more: $self show key ${2@Q}"
}

# about_word ANSWER WORD: a refused word.
about_word() {
    place_in_word "$@" || return 0
    say "the word is '$2', $(count "$bytes" byte); $place"
}

# digest_told KEY-BYTES DIGEST: a refused digest, with a key of so many bytes.
digest_told() {
    local n
    n=$(size "$2") || return 0
    say "the digest is '$2', $(count "$n" byte); this key needs a digest of ${digest_bytes[$1]-$(digest_sizes)} bytes"
}

# about_digest KEY DIGEST: a refused digest.
about_digest() {
    local k
    k=$(size "$1") || k=0
    digest_told "$k" "$2"
}

# about_length WHAT FILE THING BYTES: a file whose length is wrong. Its first two bytes state how many things it has.
about_length() {
    local n things
    n=$(size "$2") || return 0
    if [ "$n" -lt 2 ]; then
        say "the $1 is '$2', $(count "$n" byte); a $1 has at least 2 bytes"
    else
        things=$(first_two "$2")
        say "the $1 is '$2', $n bytes; its first two bytes state $(count "$things" "$3"), so it needs" \
            "$("$4" "$things") bytes"
    fi
}

# about_part WHAT FILE MORE: a file whose length is right. A command shows which part is wrong.
about_part() {
    local n
    n=$(size "$2") && say "the $1 is '$2', $n bytes; $3"
}

# about_spread ANSWER LENGTH: a refused length.
about_spread() { say "the length is '$2'; a length is a whole number from 0 to 12, without a zero in front"; }

# about_moves ANSWER MOVES WORD: a refused move list.
about_moves() {
    case $1 in
        18 | 19 | 20) about_length 'move list' "$2" move moves_bytes ;;
        *) about_part 'move list' "$2" "to see which move fails: $self show moves ${2@Q} ${3@Q}" ;;
    esac
}

# about_all KEY DIGEST SIGNATURE: names the files that were judged.
about_all() {
    local key digest word
    key=$(size "$1") && digest=$(size "$2") && word=$(size "$3") || return 0
    say "the key is '$1', $key bytes, the digest is '$2', $digest bytes, and the word is '$3', $word bytes"
}

# slip_order KEY DIGEST SIGNATURE: if these look like key, digest and word in another order, says so and sets $mixed.
slip_order() {
    is_key "$1" && is_digest "$2" && is_word "$3" && return 0
    local order
    for order in "1 3 2" "2 1 3" "2 3 1" "3 1 2" "3 2 1"; do
        set -- "$1" "$2" "$3" $order
        if is_key "${!4}" && is_digest "${!5}" && is_word "${!6}"; then
            say "the files seem to be in the wrong order: '${!4}' looks like the key, '${!5}' like the digest and" \
                "'${!6}' like the signature; give them in the order KEY DIGEST SIGNATURE"
            mixed=yes
            return 0
        fi
    done
}

# about_slip ANSWER KEY DIGEST SIGNATURE: a refused slip in three files.
about_slip() {
    local answer=$1
    shift
    case $answer in
        [1-7] | 26) about_key "$answer" "$1" ;;
        8) about_digest "$1" "$2" ;;
        9 | 1[0-3]) about_word "$answer" "$3" ;;
        14) about_all "$@" ;;
    esac
    hex_hint "$@"
    slip_order "$@"
}

# about_rewrite ANSWER WORD MOVES: a refused word or move list.
about_rewrite() {
    case $1 in
        9 | 1[0-3]) about_word "$1" "$2" ;;
        *) about_moves "$1" "$3" "$2" ;;
    esac
    hex_hint "$2" "$3"
    if ! is_word "$2" && is_moves "$2" && is_word "$3"; then
        say "the files seem to be in the wrong order: '$2' looks like the move list and '$3' like the word;" \
            "give them in the order WORD MOVES NEW"
        mixed=yes
    fi
}

# about_reduce ANSWER WORD: a refused word.
about_reduce() {
    about_word "$1" "$2"
    hex_hint "$2"
    kind_hint word "$2"
}

# about_handles ANSWER WORD LIMIT: a refused word, or a step that would leave too many letters.
about_handles() {
    case $1 in
        32) about_part word "$2" "one of the first $(count "$3" step) would leave more than 10000 letters" ;;
        *) about_reduce "$1" "$2" ;;
    esac
}

# about_converted ANSWER WORD PARTS: a word or parts that cannot be turned into the other dialect.
about_converted() {
    case $1 in
        33) say "the parts are '$3'; parts are numbers from 1 to 7 that sum to 7, with commas between, such as 4,3" ;;
        34) say "the word is '$2', $(count "$(first_two "$2")" letter); each letter becomes several letters" ;;
        *) about_reduce "$1" "$2" ;;
    esac
}

# about_restore ANSWER STORED: a refused stored form.
about_restore() {
    case $1 in
        28 | 10) about_stored_sizes "$2" ;;
        *) about_part 'stored form' "$2" "for more: $self show stored ${2@Q}" ;;
    esac
    hex_hint "$2"
    kind_hint stored "$2"
}

# about_stored_sizes STORED: a stored form whose sizes are wrong.
about_stored_sizes() {
    local n letters
    n=$(size "$1") || return 0
    if [ "$n" -lt 6 ]; then
        say "the stored form is '$1', $(count "$n" byte); a stored form has at least 6 bytes"
        return
    fi
    letters=$(first_two "$1")
    say "the stored form is '$1', $n bytes; it states $(count "$letters" letter), $(first_two "$1" 2) bytes of signs and" \
        "$(first_two "$1" 4) of generators; so many letters need $(sign_bytes "$letters") and" \
        "$(generator_bytes "$letters"), and $(stored_bytes "$letters") bytes in all"
}

# ---- key shelves

say_no_shelf() {
    local n
    n=$(size "$1") || n=0
    say "'$1' is no key shelf: it has $(count "$n" byte), and a shelf has $shelf_bytes, or none if it is empty. Give the" \
        "shelf's file, or the name of a new one"
}

# held_bytes SHELF PUBLISHER NUMBER: the length of the key that is held there.
held_bytes() { od -An -tu1 -j$((slot_bytes * (4 * ($2 - 1) + $3))) -N1 -- "$1" | tr -d ' '; }

# charged SHELF PUBLISHER: the letters charged to a publisher in this round.
charged() { first_two "$1" $((slots_bytes + 2 * ($2 - 1))); }

# letters_left OWN OTHER: the most letters that a publisher may still have judged in this round, from its own charge and
# the other's. Each is sure of 10000 letters. The amounts over 10000 may sum to 10000.
letters_left() {
    local over=$(($2 > 10000 ? $2 - 10000 : 0)) left
    left=$((over > 10000 ? 0 : 20000 - over - $1))
    echo $((left > 0 ? left : 0))
}

# about_round SHELF PUBLISHER WORD: a slip that this round does not admit.
about_round() {
    local first second left
    first=$(charged "$1" 1) second=$(charged "$1" 2)
    if [ "$2" = 1 ]; then left=$(letters_left "$first" "$second"); else left=$(letters_left "$second" "$first"); fi
    size "$3" >/dev/null && say "the word is '$3', $(count "$(first_two "$3")" letter)"
    say "the shelf is '$1'; in this round it has charged $(count "$first" letter) to publisher 1 and" \
        "$(count "$second" letter) to publisher 2, so at most $left more are left for publisher $2"
}

# about_shelf ANSWER SHELF VERB PUBLISHER NUMBER FILE..: a refused call of a shelf. A new round has no number.
about_shelf() {
    local answer=$1 shelf=$2 verb=$3 publisher=$4 number=${5-}
    local more="for what it holds: $self shelf ${2@Q} show"
    shift $(($# < 5 ? $# : 5))
    case $answer,$verb in
        30,round) say "the publisher is '$publisher'" ;;
        30,*) say "the publisher is '$publisher' and the key number is '$number'" ;;
        31,*) say "the shelf is '$shelf', the publisher is $publisher and the key number is $number; $more" ;;
        *,load) about_key "$answer" "$1" ;;
        [1-7],* | 26,*) say "the key of publisher $publisher under number $number in '$shelf' is damaged; $more" ;;
        8,*) digest_told "$(held_bytes "$shelf" "$publisher" "$number")" "$1" ;;
        9,* | 1[0-3],*) about_word "$answer" "$2" ;;
        36,*) about_round "$shelf" "$publisher" "$2" ;;
        14,*) say "the shelf is '$shelf', the publisher is $publisher, the key number is $number, the digest is '$1' and" \
            "the word is '$2'" ;;
    esac
    hex_hint "$@"
}

# A refused slip on standard input, if that is a file.
about_input() {
    local n
    n=$(size /dev/stdin) || return 0
    say "standard input has $(count "$n" byte); a slip is a key of $(key_sizes) bytes, its digest of $(digest_sizes)" \
        "bytes, and a word"
}
