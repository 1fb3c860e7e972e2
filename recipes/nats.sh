# The bus is a stream of a NATS server that keeps streams (`nats-server -js`). A late member reads it from its
# start. The server speaks in lines, so that bash is a client of its own.
own_port=4222

# Opens a connection, whose number is left in `nats`.
open_nats() {
    local line
    exec {nats}<>"/dev/tcp/$host/$port" && read -r -t 5 -u "$nats" line &&
        printf 'CONNECT {"verbose":false}\r\n' >&"$nats"
}

# Closes the connection, if there is one.
close_nats() {
    [ -z "$nats" ] || exec {nats}>&-
    nats=
}

# Publishes a text under a subject; the answer is wanted under the third word, if there is one.
publish() {
    printf 'PUB %s%s %d\r\n%s\r\n' "$1" "${3:+ $3}" "${#2}" "$2" >&"$nats"
}

# Reads one line of the server, and the text of a message into `text`. The status is 0 for a message, 1
# for another line, and 2 at the end.
read_message() {
    local line words
    read -r -t "${1:-600}" -u "$nats" line || return 2
    line=${line%$'\r'}
    case $line in
        PING*) printf 'PONG\r\n' >&"$nats" || return 2 ;;
        MSG\ *)
            words=($line)
            text=''
            [ "${words[-1]}" -eq 0 ] || IFS= read -r -t 5 -N "${words[-1]}" -u "$nats" text || return 2
            read -r -t 5 -u "$nats" line || return 2
            return 0
            ;;
    esac
    return 1
}

# Asks for a stream of that name, and for a message for each line of it from its start.
open_stream() {
    local inbox=_u.$$.$RANDOM$RANDOM
    open_nats || return
    printf 'SUB %s.said 1\r\nSUB %s.line 2\r\n' "$inbox" "$inbox" >&"$nats"
    publish "\$JS.API.STREAM.CREATE.$1" \
        "{\"name\":\"$1\",\"subjects\":[\"$1\"],\"storage\":\"file\",\"retention\":\"limits\"}" "$inbox.said"
    publish "\$JS.API.CONSUMER.CREATE.$1" \
        "{\"stream_name\":\"$1\",\"config\":{\"deliver_subject\":\"$inbox.line\",\"deliver_policy\":\"all\",\"ack_policy\":\"none\"}}" \
        "$inbox.said"
}

# The lines of the stream from its start, and then each new one. An answer of the server to what it was
# asked begins with a brace, and no line that a member prints does.
from() {
    local status text nats=
    while true; do
        open_stream "$1" && while true; do
            read_message
            status=$?
            [ "$status" -ne 2 ] || break
            [ "$status" -ne 0 ] || [ "${text:0:1}" = '{' ] || printf '%s\n' "$text" || return
        done
        close_nats
        sleep 1
    done 2>/dev/null
}

# Answers the server's pings that are there.
answer_pings() {
    while read -r -t 0 -u "$nats"; do
        read_message 5
        [ $? -ne 2 ] || return
    done
}

# Publishes a line, if the server is there.
send() {
    [ -n "$nats" ] || open_nats || return
    answer_pings && publish "$1" "$2"
}

# Sends lines to the stream. Those that come while the server is away are lost.
to() {
    local line status nats=
    trap '' PIPE
    while true; do
        IFS= read -r -t 30 line
        status=$?
        if [ "$status" -eq 0 ]; then
            send "$1" "$line" || close_nats
        elif [ "$status" -le 128 ]; then
            return
        elif [ -n "$nats" ]; then
            answer_pings || close_nats
        fi
    done 2>/dev/null
}
