# The bus is a file that grows: the log. It has to be on a disk of this machine, where what is added at
# once stays whole. It is the one engine that needs no server.

# Sets `log`.
find_place() {
    log=${1:-log}
    touch -- "$log"
}

# All lines of the log, and then each new one, as long as the member runs.
from() {
    exec tail -n +1 -f --pid=$$ -- "$log"
}

# Adds lines to the log.
to() {
    exec cat >>"$log"
}

# An empty line in the log each second. One of the members that call this does it, as long as it runs.
clock() {
    (
        flock 9 || exit
        while sleep 1 && is_wanted; do echo >>"$log"; done
    ) 9>>"$log.clock"
}

# The clock's lines are in the log.
listen() {
    clock &
    (from "$1")
    end_job
}
