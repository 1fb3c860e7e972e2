#!/usr/bin/env bash
# Times the built program, and fails if it is slower, or takes more memory, than it may.
#
# What it prints is a page of tables in markdown: `bench/run.sh >docs/measured/$(date -I).md` writes the page
# of the day, which is never edited. What is too slow is told on standard error. Times are by the clock, with
# whatever else the machine does; memory is the greatest of the runs, in KiB, if /usr/bin/time is there.
#
#   firings     100,000 of three programs and a million of a sum, the best of five, beside a loop of plain
#               hashing (awk, a million look-ups in a table of a hundred thousand). A row says how many times
#               as long as that loop a run may take, and its memory; the million may take 18 times as long as
#               the hundred thousand of the sum
#   growth      chains of additions, the sum, Fibonacci and nested loops: ten times as many firings may take
#               13 times as long. What takes less than 20 milliseconds is not compared
#   checkpoints of a sum, saved, restored, and restored with its last firing first, the best of three:
#               restoring may take 1.7 times as long as running, backwards twice as long; saving ten times as
#               many bytes 13 times as long
#   traces      of a sum's answer, the best of three: three times as long as the run
#   worlds      2, 4 and 8 replicas of the sum of 100, 1,000 and 10,000 random events: not bounded
#   fleets      of 1, 2, 4 and 8 workers, the best of three: one of four may take six times as long as a run,
#               and ten times its memory
#   members     one prints a million firings, one takes them from a pipe, the best of three: three
#               times as long as a run, and one and a half times its memory
#   instructions of a firing, if valgrind is there: at most 2,600
#   looks       the first at a copy of the sources may take three minutes, and the next, which is kept, three seconds
. "$(dirname -- "${BASH_SOURCE[0]}")/../tests/common.sh" || exit 2
need_program >&2

fail() {
    echo "$*" >&2
    failed=1
}

# Fails with the words behind $2 if $1 is greater than $2.
at_most() {
    [ "$1" -le "$2" ] || fail "${@:3}"
}

# A row of a table, and the first row of one.
row() {
    printf '| %s ' "$@"
    echo '|'
}
heading() {
    echo
    row "$@"
    printf '|---%.0s' "$@"
    echo '|'
}

# The seconds of so many microseconds; how many times as much $1 is as $2.
seconds() {
    printf '%d.%03d' $(($1 / 1000000)) $(($1 / 1000 % 1000))
}
ratio() {
    awk -v a="$1" -v b="$2" 'BEGIN { printf "%.2f", a / b }'
}

# Runs a command of the program, which reads the file `input` through a pipe. It leaves the status in `status`,
# the microseconds in `spent`, and the memory in `memory`, which is 0 if nothing measures it. Standard output
# stands in $temp/out.
input=/dev/null
watch=()
[ ! -x /usr/bin/time ] || watch=(/usr/bin/time -q -f %M -o "$temp/memory")
measure() {
    local start
    start=$(now)
    "${watch[@]}" "$binary" "$@" < <(cat -- "$input") >"$temp/out"
    status=$?
    spent=$(($(now) - start))
    memory=$(cat -- "$temp/memory" 2>/dev/null || echo 0)
}

# The same, $1 times: the least time, and the greatest memory. Each run has to end with status 0, or with one that
# `wanted` has.
best_of() {
    local turn
    for ((turn = 0; turn < $1; turn++)); do
        measure "${@:2}"
        [[ $status = ${wanted:-0} ]] || fail "${*:2} ended with status $status"
        echo "$spent $memory"
    done >"$temp/turns"
    spent=$(cut -d ' ' -f 1 "$temp/turns" | sort -n | head -n 1)
    memory=$(cut -d ' ' -f 2 "$temp/turns" | sort -n | tail -n 1)
}

# Whether a run that took $1 microseconds for $2 firings is too slow after one that took $3 for $4: it
# takes more than 13 times as long for each ten times as many.
grows_too_much() {
    [ "$3" -ge 20000 ] && awk -v t="$1" -v f="$2" -v u="$3" -v g="$4" \
        'BEGIN { exit !(t / u > exp(log(13) * log(f / g) / log(10))) }'
}

# What is measured where.
page_head() {
    local commit
    commit=$(git -C "$top" rev-parse --short HEAD 2>/dev/null || echo unknown)
    [ -z "$(git -C "$top" status --porcelain 2>/dev/null)" ] || commit="$commit, with changes"
    printf '# Measured on %s\n\n' "$(date -I)"
    printf 'Written by `bench/run.sh`, and not edited. Commit %s. %s processors (%s), %s MiB of memory; as it began, ' \
        "$commit" "$(nproc)" "$(sed -n 's/^model name[^:]*: *//p' /proc/cpuinfo | head -n 1)" \
        "$(awk '/^MemTotal/ { print int($2 / 1024) }' /proc/meminfo)"
    printf '%s programs were running. Seconds are by the clock, memory is in KiB.\n' "$(cut -d ' ' -f 1 /proc/loadavg)"
}

# The microseconds that a loop of plain hashing takes, the best of three.
hashing() {
    local binary=awk
    best_of 3 'BEGIN { for (i = 0; i < 1000000; i++) table[(i * 7919) % 100003] += i }'
    loop=$spent
}

# Times $3 firings of the program $1 on $2. They may take at most $4 hundredths of the time of the loop of
# plain hashing, and $5 KiB.
timed_firings() {
    wanted='[04]' best_of 5 run "$top/programs/$1.u" "$2" --firings "$3"
    row "$1 $2" "$(sed -n 's/^firings //p' "$temp/out")" "$(seconds "$spent")" \
        "$(ratio "$spent" "$loop")" "$memory"
    at_most $((spent * 100)) $((loop * $4)) "$3 firings of $1 took more than $4 hundredths of plain hashing"
    at_most "$memory" "$5" "$3 firings of $1 took more than $5 KiB"
}

# A chain of so many statements: `begin`, sums, and `end`. Its argument is 0, so nothing overflows.
chain() {
    local k last=$1
    printf 'u-program 1\nblock main\n1 0 begin -> 2.1 2.2\n'
    for ((k = 2; k < last - 1; k++)); do
        printf '%d 0 add -> %d.1 %d.2\n' "$k" $((k + 1)) $((k + 1))
    done
    printf '%d 0 add -> %d.1\n%d 0 end ->\n' $((last - 1)) "$last" "$last"
}

# Times a run of the program $1 on $2, which has to end with one answer after $3 firings, beside the run
# before, if that was of the same program.
grown() {
    local firings growth=-
    measure run "$1" "$2" --firings 1000000
    firings=$(sed -n 's/^firings //p' "$temp/out")
    if [ "$status" -ne 0 ] || [ "$firings" != "$3" ]; then
        fail "$1 $2 ended with status $status and '$firings' firings"
    fi
    if [ "$1" = "$growing" ]; then
        growth=$(ratio "$spent" "$before")
        ! grows_too_much "$spent" "$3" "$before" "$fired" ||
            fail "$1 $2 took $growth times as long as the run before"
    fi
    row "$(basename -- "$1" .u) $2" "${firings:--}" "$(seconds "$spent")" "$growth" "$memory"
    growing=$1 before=$spent fired=$3
}

# Runs that grow: how many firings each has follows from its program.
timed_growth() {
    local size growing=''
    for size in 75 150 300 600; do
        chain "$size" >"$temp/chain.u"
        grown "$temp/chain.u" 0 "$size"
    done
    for size in 98 998 9998; do grown "$top/programs/sum.u" "$size" $((10 * size + 15)); done
    for size in '9 1090' '14 12190' '19 135290'; do grown "$top/programs/fibonacci.u" $size; done
    for size in 13 45 147; do
        grown "$top/programs/nested.u" "$size" $((11 + 18 * size + 9 * size * (size + 1) / 2))
    done
}

# Times the sum up to a number: running it, saving it and restoring it from what was saved.
timed_checkpoint() {
    local sum=$top/programs/sum.u running saving restoring bytes
    best_of 3 run "$sum" "$1"
    running=$spent
    best_of 3 save "$sum" "$1"
    saving=$spent
    mv -- "$temp/out" "$temp/checkpoint"
    bytes=$(stat -c %s -- "$temp/checkpoint")
    best_of 3 restore "$sum" "$1" "$temp/checkpoint"
    restoring=$spent
    { head -n 1 -- "$temp/checkpoint"; sed '1d;$d' -- "$temp/checkpoint" | tac
        tail -n 1 -- "$temp/checkpoint"; } >"$temp/backwards"
    best_of 3 restore "$sum" "$1" "$temp/backwards"
    row "$1" "$bytes" "$(seconds "$running")" "$(seconds "$saving")" "$(seconds "$restoring")" \
        "$(seconds "$spent")"
    if [ "$1" = 9998 ]; then
        at_most "$restoring" $((running * 17 / 10)) 'restoring took more than 1.7 times as long as running'
        at_most "$spent" $((running * 2)) 'restoring backwards took more than twice as long as running'
        ! grows_too_much "$saving" "$bytes" "$saved_before" "$bytes_before" || fail 'saving grew too much'
    fi
    saved_before=$saving bytes_before=$bytes
}

# Times tracing the answer of the sum up to a number.
timed_trace() {
    local running
    best_of 3 run "$top/programs/sum.u" "$1"
    running=$spent
    best_of 3 trace "$top/programs/sum.u" "$1" "a $(($1 * ($1 + 1) / 2))"
    row "$1" "$(sed -n 's/^story //p' "$temp/out")" "$(seconds "$running")" "$(seconds "$spent")"
    [ "$1" != 9998 ] ||
        at_most "$spent" $((running * 3)) 'tracing took more than three times as long as running'
}

# Times a world of so many replicas of the sum of 100 and so many events.
timed_world() {
    measure world "$top/programs/sum.u" 100 --replicas "$1" --events "$2"
    row "$1" "$2" "$(seconds "$spent")" "$memory"
    if [ "$status" -ne 0 ] || [ "$(tail -n 1 -- "$temp/out")" != 'verdict answer 5050' ]; then
        fail "a world of $1 replicas and $2 events ended with status $status"
    fi
}

# Times a program on an argument, run alone and by fleets.
timed_fleets() {
    local running least workers
    best_of 3 run "$top/programs/$1.u" "$2"
    running=$spent least=$memory
    for workers in 1 2 4 8; do
        best_of 3 fleet "$top/programs/$1.u" "$2" --workers "$workers"
        row "$1 $2" "$workers" "$(seconds "$running")" "$(seconds "$spent")" \
            "$(ratio "$spent" "$running")" "$memory"
        if [ "$workers" -eq 4 ]; then
            at_most "$spent" $((running * 6)) "a fleet of 4 for $1 took more than 6 times a run"
            at_most "$memory" $((least * 10)) "a fleet of 4 for $1 took more than 10 times the memory of a run"
        fi
    done
}

# Times a member whose lines come from the file $1, and go to the file $2. Its report has to be that of the run,
# which took $3 microseconds and $4 KiB; further words are the member's.
timed_member() {
    input=$1 best_of 3 share "$top/programs/sum.u" 99998 --report "$temp/report" "${@:5}"
    cmp -s -- "$temp/report" "$temp/wanted" || fail "a member that reads $1 does not report what a run does"
    mv -- "$temp/out" "$2"
    row "${5:---lead}" "$(wc -l <"$2")" "$(seconds "$3")" "$(seconds "$spent")" "$(ratio "$spent" "$3")" "$memory"
    at_most "$spent" $(($3 * 3)) 'a member took more than three times as long as a run'
    at_most $((memory * 2)) $(($4 * 3)) 'a member took more than one and a half times the memory of a run'
}

# Times a member that prints a million firings, and one that takes them.
timed_members() {
    local running least
    best_of 3 run "$top/programs/sum.u" 99998 --firings 1000000
    running=$spent least=$memory
    cp -- "$temp/out" "$temp/wanted"
    timed_member /dev/null "$temp/lines" "$running" "$least"
    timed_member "$temp/lines" "$temp/rest" "$running" "$least" --follow
}

# Counts the instructions of a run, in an empty environment, as the system's loader goes over it.
counted() {
    local firings instructions
    env -i valgrind --tool=callgrind --callgrind-out-file=/dev/null \
        "$binary" run "$top/programs/$1.u" "$2" >"$temp/out" 2>"$temp/said"
    firings=$(sed -n 's/^firings //p' "$temp/out")
    instructions=$(sed -n 's/.*Collected : //p' "$temp/said")
    if [ -z "$firings" ] || [ -z "$instructions" ]; then
        fail "the instructions of $1 were not counted"
        return
    fi
    row "$1 $2" "$firings" "$instructions" $((instructions / firings))
    at_most $((instructions / firings)) 2600 "a firing of $1 took more than 2600 instructions"
}

# Times two looks at a copy of the sources: the first is built, and the next is kept.
timed_looks() {
    local binary=$temp/copy/u limit
    mkdir -- "$temp/copy" && copy_crates "$temp/copy" u crates.txt
    for limit in 180 3; do
        measure run "$top/programs/double.ul" 4
        row "$limit seconds" "$(seconds "$spent")"
        [ "$status" -eq 0 ] || fail "a look ended with status $status"
        at_most "$spent" $((limit * 1000000)) "a look took more than $limit seconds"
    done
}

page_head
hashing
heading 'run of' firings seconds 'times plain hashing' memory
timed_firings sum 9998 100000 96 90000
summed=$spent
timed_firings fibonacci 19 100000 96 90000
timed_firings nested 147 100000 96 90000
timed_firings sum 99998 1000000 1150 900000
at_most "$spent" $((summed * 18)) 'a million firings took more than 18 times as long as a hundred thousand'

heading 'run of' firings seconds 'times the run before' memory
timed_growth

saved_before=0 bytes_before=0
heading 'checkpoint of sum' bytes run save restore 'restore backwards'
for size in 998 9998; do timed_checkpoint "$size"; done

heading 'trace of sum' 'firings of the story' run trace
for size in 998 9998; do timed_trace "$size"; done

heading 'replicas of sum 100' events seconds memory
for events in 1000 10000; do
    for replicas in 2 4 8; do timed_world "$replicas" "$events"; done
done

heading 'fleet for' workers run fleet 'times the run' memory
timed_fleets sum 9998
timed_fleets nested 146

heading member 'lines printed' run member 'times the run' memory
timed_members

if command -v valgrind >/dev/null; then
    heading 'run of' firings instructions 'of a firing'
    counted sum 998
    counted nested 47
    counted fibonacci 14
fi

heading 'look that may take' seconds
timed_looks
exit "$failed"
