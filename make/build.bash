# What ./bench, ./stamps and ./build-library share: how a crate is proved and built. They set `command`, how they are called,
# `name`, the crate, and `kind`, program or library; a program also sets `share`, how many hundredths of a first build were
# measured to go into each crate, and `instead`, what can be done meanwhile.

: "${command:?}" "${name:?}" "${kind:?}" "${instead:=}"
declare -p share > /dev/null 2>&1 || declare -A share=()
top="$(dirname "$(dirname "$(realpath "${BASH_SOURCE[0]}")")")"

# What is removed when the command ends, also where it is asked to end early.
temporary=()
trap '[ "${#temporary[@]}" -eq 0 ] || rm -rf "${temporary[@]}"' EXIT
trap 'exit 130' INT
trap 'exit 143' TERM

source "$top/make/usage.bash"

if [ "$kind" = program ]; then
    built="$top/crates/$name/out/$name"
else
    built="$top/crates/$name/out/lib$name.a"
fi
read -r -a below <<< "$(sed -n "s/^$name\( staticlib\)\?: *//p" "$top/crates.txt")"
crates=("${below[@]}" "$name")

# Whether the crate is built, and no file that it is built from was written since its build began.
is_built() {
    local folders=()
    for crate in "${crates[@]}"; do
        for part in src specs proofs; do
            [ ! -e "$top/crates/$crate/$part" ] || folders+=("$top/crates/$crate/$part")
        done
    done
    [ -f "$built" ] && [ -z "$(find "$top/crates.txt" "${folders[@]}" -cnewer "$built" -print -quit)" ]
}

# Whether no crate was checked or built before.
is_first() {
    for crate in "${crates[@]}"; do
        [ ! -e "$top/crates/$crate/out/incremental" ] && [ ! -e "$top/crates/$crate/out/rlib" ] || return 1
    done
}

# How long the rest of a program's first build takes, if it goes on as so far, of which so many parts of 10,000 are done; nothing
# where that is too little to tell by.
left_after() {
    local left
    [ "$first" = yes ] && [ "$1" -ge 300 ] || return 0
    left=$(((SECONDS - start) * (10000 - $1) / $1))
    echo "; about $((left / 60 + 1)) min left"
}

# Keeps the lines that are printed of a crate, and tells of those that say how many of its functions are checked.
tell() {
    local crate="$1" number="$2" so_far
    while IFS= read -r line; do
        printf '%s\n' "$line" >> "$log"
        [[ "$line" =~ ^so\ far:\ ([0-9]+)\ of\ ([1-9][0-9]*)\  ]] || continue
        so_far=$((before * 100 + ${share[$crate]:-0} * 100 * BASH_REMATCH[1] / BASH_REMATCH[2]))
        echo "$command: $crate, crate $number of ${#crates[@]}: ${BASH_REMATCH[1]} of ${BASH_REMATCH[2]} functions$(left_after "$so_far")" >&2
    done
}

# Proves and builds a crate: the program by `rt run`, which also runs it, with the words that its file `args` has; a library by
# `rt lib`, or in a program's first build by its statements.
prove() {
    local crate="$1" words=()
    if [ "$crate" = "$name" ] && [ "$kind" = program ]; then
        [ ! -f "$top/crates/$crate/args" ] || mapfile -t words < "$top/crates/$crate/args"
        (cd "$top/crates/$crate" && rt run --jobs "$jobs" ${words:+-- "${words[@]}"})
    elif [ "$first" = yes ]; then
        JOBS="$jobs" "$top/make/prove_statements" "$crate"
    else
        (cd "$top/crates/$crate" && rt lib --jobs "$jobs")
    fi
}

build() {
    local jobs first=no start=$SECONDS before=0 number=0
    jobs="$("$top/gate/jobs")"
    echo "$command: proving and building $name and the ${#below[@]} crates below it, with $jobs jobs" >&2
    if [ "$kind" = program ] && is_first; then
        first=yes
        echo "$command: this takes minutes$instead" >&2
    fi
    for crate in "${crates[@]}"; do
        number=$((number + 1))
        echo "$command: $crate, crate $number of ${#crates[@]}$(left_after $((before * 100)))" >&2
        prove "$crate" < /dev/null 2>&1 | tell "$crate" "$number" || return 1
        [ "$first" = no ] || before=$((before + ${share[$crate]:-0}))
    done
}

# Proves and builds the crate where a file has changed since.
build_what_changed() {
    if is_built; then
        return
    fi
    log="$(mktemp)"
    temporary+=("$log")
    began="$(mktemp)"
    temporary+=("$began")
    if ! build || [ ! -f "$built" ]; then
        tail -n 20 "$log" >&2
        echo "$command: $name was not built; all lines are in $log" >&2
        temporary=("$began")
        exit 1
    fi
    # What was saved while the build ran is newer than what it made.
    touch -r "$began" "$built"
    rm "$log" "$began"
}

# Runs the program with these words, and proves and builds it before where a file has changed since.
run() {
    build_what_changed
    exec "$built" "$@"
}

# The most bytes that `rt try` reads.
most_read=67108864

# Whether the disk of a folder has no room for what a run may write.
is_full() {
    ! head -c 4000000 /dev/zero 2> /dev/null > "$1/filler" || ! rm "$1/filler"
}

# Says why a run gave no answer: what it said itself, or that the disk is full, before what else can be the reason.
say_why() {
    if is_full "$room"; then
        echo "$command: --unproved gave no answer: no room is left on the disk of $room" >&2
        return
    fi
    echo "$command: --unproved gave no answer:" >&2
    grep -E '^(interpreter|checked|error|rt): ' "$room/said" >&2 || cat "$room/said" >&2
    echo "$command: it writes at most a megabyte and runs for a minute at most; ./$command has no such limit" >&2
}

# Answers with these words by `rt try`, which runs the sources as they are, and keeps nothing.
run_unproved() {
    local status=0
    room="$(mktemp -d)"
    temporary+=("$room")
    if ! head -c $((most_read + 1)) > "$room/lines"; then
        say_why
        exit 2
    fi
    if [ "$(stat -c %s "$room/lines")" -gt "$most_read" ]; then
        echo "$command: --unproved takes at most $most_read bytes of lines; ./$command takes any number" >&2
        exit 2
    fi
    (cd "$top/crates/$name" && rt try ${1:+--} "$@" < "$room/lines" > "$room/answers" 2> "$room/said") || status=$?
    if ! grep -q '^run=ended ' "$room/said"; then
        say_why
        exit 2
    fi
    cat "$room/answers"
    grep -vE '^(allocations: [0-9]+|interpreter: .*|checked: .*|run=.*)$' "$room/said" >&2 || true
    echo "$command: these answers are not proved; ./$command proves the program before it runs" >&2
    exit "$status"
}

# Puts the libraries of a file of proofs into their places.
take_proofs() {
    [ -n "$1" ] || refuse_words "a file is missing after --proofs"
    "$top/make/proofs" take "$1" || exit 1
}
