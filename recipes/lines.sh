# Sourced by `member`: names of runs, and the clock.

# The name of a run: letters, digits and hyphens.
key_of() {
    local sum
    sum=$(sha256sum -- "$1") || return
    sum=${sum#\\}
    printf 'u-%s-%s\n' "${sum:0:16}" "$2"
}

# Sets `host` and `port` by HOST:PORT, of which each part may be left out; an engine has its own port.
find_place() {
    host=127.0.0.1 port=$own_port
    case $1 in
        '') ;;
        *:*) host=${1%:*} port=${1##*:} ;;
        *) host=$1 ;;
    esac
}

# Whether the member that sourced this still runs.
is_wanted() {
    kill -0 "$$" 2>/dev/null
}

# Passes lines on, and writes an empty one about each second, whatever comes. It ends after so many seconds
# without a line, and within a second after the member. A line that came in part is held until its end comes.
ticking() {
    local part='' line status silent=0 last=$SECONDS
    while [ "$silent" -lt "${U_PATIENCE:-30}" ] && is_wanted; do
        IFS= read -r -t 1 line
        status=$?
        part+=$line
        if [ "$status" -eq 0 ]; then
            printf '%s\n' "$part" || return
            part='' silent=0
        elif [ "$status" -gt 128 ]; then
            silent=$((silent + 1))
        else
            return
        fi
        if [ "$SECONDS" -ne "$last" ] && [ -z "$part" ]; then
            echo || return
            last=$SECONDS
        fi
    done
}

# Ends the job that calls it, with all that it started: `from` may wait for a server that is away, and would
# keep the member's input open. A member that was killed by -9 left its folder, which goes here.
end_job() {
    is_wanted || rm -rf -- "$room"
    kill -- "-$BASHPID"
}

# What the member reads: the lines of the bus, and those of the clock.
listen() {
    ticking < <(from "$1")
    end_job
}
