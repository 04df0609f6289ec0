# What ./bench, ./stamps and ./build-library share: they print how they are called. They set `command`, their name.

: "${command:?}"

# Prints the first comment of the script that runs, which says how it is called.
print_usage() {
    sed -n '2,${/^#/!q;s/^# \{0,1\}//p;}' "${BASH_SOURCE[-1]}"
}

# Prints the usage to standard output and ends well, where `--help` is the first word.
answer_help() {
    if [ "${1:-}" = --help ]; then
        print_usage
        exit 0
    fi
}

# Prints what is wrong with the words, and the usage, to standard error, and ends with status 2.
refuse_words() {
    echo "$command: $1" >&2
    print_usage >&2
    exit 2
}
