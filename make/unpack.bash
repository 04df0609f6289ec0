# What ./stamps does with compressed files: a program of the system unpacks each into a pipe, and stamps reads the pipe.

: "${command:?}" "${built:?}"

# The files that are unpacked, and at the same places what unpacks each and the pipe that stands for it.
packed=() unpackers=() pipes=()

# The program that unpacks a file, by its first bytes in hexadecimal digits, if that program is there.
unpacker_of() {
    local program=""
    case "$(head -c 5 -- "$1" | od -An -tx1 | tr -d ' \n')" in
        1f8b*) program=gzip ;;
        28b52ffd*) program=zstd ;;
        fd377a585a) program=xz ;;
        425a68*) program=bzip2 ;;
    esac
    [ -z "$program" ] || ! command -v "$program" > /dev/null || echo "$program"
}

# The pipe that stands for a file, or nothing.
pipe_of() {
    local place
    for place in "${!packed[@]}"; do
        [ "${packed[$place]}" != "$1" ] || echo "${pipes[$place]}"
    done
}

# Makes a pipe for the file of a word if it is compressed. The pipe has the name of the file without its ending.
take_packed() {
    local program base name place="${#packed[@]}"
    [ -f "$1" ] && [ -r "$1" ] && [ -z "$(pipe_of "$1")" ] || return 0
    program="$(unpacker_of "$1")"
    [ -n "$program" ] || return 0
    base="$(basename -- "$1")" name="${base%.*}"
    packed+=("$1") unpackers+=("$program") pipes+=("$room/$place/${name:-$base}")
    mkdir "$room/$place"
    mkfifo -- "${pipes[$place]}"
    echo "$command: $1: $program -dc unpacks it as ${pipes[$place]}" >&2
}

# A word with the pipe of the file that it names, or whose year it gives.
with_pipe() {
    local found
    found="$(pipe_of "$1")"
    if [ -n "$found" ]; then
        echo "$found"
    elif [[ "$1" = *=* ]] && [ -n "$(pipe_of "${1%=*}")" ]; then
        echo "$(pipe_of "${1%=*}")=${1##*=}"
    else
        echo "$1"
    fi
}

# Ends what unpacks a file, which may wait for a reader that does not come. It has a second to end by itself.
end_unpacking() {
    local _
    for _ in {1..20}; do
        kill -0 "$1" 2> /dev/null || return 0
        sleep 0.05
    done
    kill -PIPE "$1" 2> /dev/null || true
}

# Runs the program over the pipes. If a file is not unpacked whole, it says so, and the status is 2.
run_over_pipes() {
    local word place ended status=0 words=() unpacking=()
    for word in "$@"; do
        words+=("$(with_pipe "$word")")
    done
    build_what_changed
    for place in "${!packed[@]}"; do
        "${unpackers[$place]}" -dc -- "${packed[$place]}" > "${pipes[$place]}" &
        unpacking+=("$!")
    done
    "$built" "${words[@]}" || status=$?
    for place in "${!packed[@]}"; do
        end_unpacking "${unpacking[$place]}"
        ended=0
        wait "${unpacking[$place]}" || ended=$?
        if [ "$ended" -ne 0 ] && [ "$ended" -ne 141 ]; then
            echo "$command: ${packed[$place]}: ${unpackers[$place]} -dc ended with status $ended: lines may be missing" >&2
            status=2
        fi
    done
    exit "$status"
}

# Runs the program with these words. Compressed files are unpacked for it.
run_unpacked() {
    local word
    room="$(mktemp -d)"
    temporary+=("$room")
    for word in "$@"; do
        take_packed "$word"
    done
    [ "${#packed[@]}" -eq 0 ] || run_over_pipes "$@"
    rm -r "$room"
    run "$@"
}
