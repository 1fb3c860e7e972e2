# The bus is a stream of a Redis server. The server keeps it, so a late member reads it from its start.
own_port=6379

# Redis's own client.
client() {
    exec redis-cli -h "$host" -p "$port" --raw
}

# The lines of one answer to XREAD, which ends with a line PONG. `id` is the last place of the stream that
# was read. An answer of another form is left out up to its PONG.
read_answer() {
    local line text
    read -r -t 5 line || return
    while read -r -t 5 line && [ "$line" != PONG ]; do
        [[ $line =~ ^[0-9]+-[0-9]+$ ]] || continue
        id=$line
        read -r -t 5 line && IFS= read -r -t 5 text || return
        printf '%s\n' "$text" || exit
    done
    [ "$line" = PONG ]
}

# The lines of the stream from its start, and then each new one. It asks anew where the server was away.
from() {
    local id=0-0
    trap 'kill "${REDIS_PID-}" 2>/dev/null' EXIT
    trap 'exit' TERM PIPE
    while true; do
        coproc REDIS { client; }
        while printf 'XREAD COUNT 1000 BLOCK 1000 STREAMS %s %s\nPING\n' "$1" "$id" >&"${REDIS[1]}" &&
            read_answer <&"${REDIS[0]}"; do :; done
        kill "$REDIS_PID"
        wait "$REDIS_PID"
        sleep 1
    done 2>/dev/null
}

# Adds lines to the stream. A line of `u share` has no quotes.
to() {
    sed -u "s/.*/XADD $1 * f \"&\"/" | client >/dev/null
}
