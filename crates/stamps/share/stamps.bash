# The completion of stamps for bash. Made by make/stamps_words.
_stamps() {
    local typed="${COMP_WORDS[COMP_CWORD]}" options=
    COMPREPLY=()
    if [ "$COMP_CWORD" -eq 1 ]; then
        mapfile -t COMPREPLY < <(compgen -W 'utc at unix check gaps count since until between merge --list-forms --help --version' -- "$typed")
        return
    fi
    if [ "${COMP_WORDS[COMP_CWORD - 1]}" = --form ]; then
        mapfile -t COMPREPLY < <(compgen -W 'rfc3339 rfc3339-comma journald rfc5424 rfc3164 git postgres clf git-default date rfc2822 haproxy nginx-error local-comma local two-spaces apache-error redis tomcat erlang bgl syslog klog android syslog-year modsecurity php hour-offset cisco-utc cisco asa nxos django splunk clickhouse suricata redis-2.8 glog unix unix-ms unix-us unix-ns mysql-5.6 hdfs spark' -- "$typed")
        return
    fi
    if [ "${COMP_WORDS[COMP_CWORD - 1]}" = --place ]; then
        mapfile -t COMPREPLY < <(compgen -W 'front access coloured field: after: json:' -- "$typed")
        return
    fi
    # With no answer here, bash completes the name of a file.
    [[ "$typed" == -* ]] || return 0
    case "${COMP_WORDS[1]}" in
        utc) options='--strict --form --place --offset --zone --year --quiet' ;;
        at) options='--strict --form --place --offset --zone --year --quiet' ;;
        unix) options='--strict --form --place --offset --zone --year --quiet' ;;
        check) options='--all --strict --form --place --offset --zone --year --quiet' ;;
        gaps) options='--strict --form --place --offset --zone --year --quiet' ;;
        count) options='--all --strict --form --place --offset --zone --year --quiet' ;;
        since) options='--until --verbose --form --place --offset --zone --year --quiet' ;;
        until) options='--verbose --form --place --offset --zone --year --quiet' ;;
        between) options='--verbose --form --place --offset --zone --year --quiet' ;;
        merge) options='--to --strict --form --place --offset --zone --year --quiet' ;;
    esac
    mapfile -t COMPREPLY < <(compgen -W "$options" -- "$typed")
}
complete -o default -F _stamps stamps
