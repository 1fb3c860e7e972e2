#!/usr/bin/env bash
# Tries `u share` over message buses, by the scripts of recipes/, each with a server of its own on this
# machine: a file, a stream of Redis, a topic of MQTT, a stream of NATS.
#
#   tests/engines.sh [ENGINE..]     file, redis, mqtt, nats; all of them if none is named
#
# On each bus a calm run comes first: a leader and two followers, which have to write the report of `u run`,
# byte for byte. Then a rough one: each member loses one line in ten and gets one in ten twice; forged and
# broken lines come in between; a member comes late; the leader is killed and started again; the server is
# killed and started again. Each member that is left has to write that report, but for the number of
# parked firings. Then the server dies for good under a leader and a follower, and a member starts without
# one: each has to write that report once the bus was silent for U_PATIENCE seconds. Last, a member that is
# killed by -9 has to take all that it started along. A row says how many firings there are, how many lines
# the bus carried for each of them, and how many firings a second that was.
#
# Programs that lack are installed by the names of their Debian packages. Ports lie outside of the range
# from which the system takes ports for connections. Each wait has an end, and all of them after five
# minutes. U_BINARY is the program that is tried, the built one by default, and U_ENGINES_SIZE the argument
# of the sum. The last line is 'N passed, M failed'.
. "$(dirname -- "${BASH_SOURCE[0]}")/common.sh" || exit 2
need_program
program=$top/programs/sum.u
size=${U_ENGINES_SIZE:-2000}
# The numbers of what was started, and those of the members by their names.
started=() servers=()
declare -A member=()

# Ends what this script started, by number.
end_all() {
    local number
    for number in "${started[@]}"; do kill -- "$number" 2>/dev/null; done
    for number in "${servers[@]}"; do kill -9 -- "$number" 2>/dev/null; done
    rm -rf -- "$temp"
}
trap end_all EXIT
trap 'exit 2' INT TERM HUP

# Counts whether a command has status 0.
expect() {
    if "${@:2}"; then count "$1" ''; else count "$engine: $1" 'not so'; fi
}

# Waits until the command has status 0, for so many tenths of a second at most, and not at all once the
# script has run for five minutes.
until_so() {
    local tenths=$1
    until "${@:2}"; do
        tenths=$((tenths - 1))
        [ "$tenths" -gt 0 ] && [ "$SECONDS" -lt 300 ] || return 1
        sleep 0.1
    done
}

# Installs the packages of the programs that lack for an engine, which are named PROGRAM:PACKAGE.
install_for() {
    local word words='' packages=()
    case $1 in
        redis) words='redis-server:redis-server redis-cli:redis-tools' ;;
        mqtt) words='mosquitto:mosquitto mosquitto_sub:mosquitto-clients' ;;
        nats) words='nats-server:nats-server' ;;
    esac
    for word in $words; do command -v "${word%:*}" >/dev/null || packages+=("${word#*:}"); done
    [ "${#packages[@]}" -gt 0 ] || return 0
    echo "$1: installs ${packages[*]}"
    timeout 60 apt-get update >"$temp/apt" 2>&1
    DEBIAN_FRONTEND=noninteractive RUNLEVEL=1 timeout 120 apt-get install -y --no-install-recommends \
        "${packages[@]}" >>"$temp/apt" 2>&1 && return
    tail -n 3 -- "$temp/apt"
    echo "$1: ${packages[*]} can't be had"
    return 1
}

# Whether something takes connections at the port.
listens() {
    (: <>"/dev/tcp/127.0.0.1/$port") 2>/dev/null
}

# Leaves in `port` one that nobody listens to.
find_port() {
    local low tries
    read -r low _ </proc/sys/net/ipv4/ip_local_port_range
    for ((tries = 0; tries < 50; tries++)); do
        port=$((low - 1 - (RANDOM % 8000)))
        [ "$port" -gt 1024 ] || return 1
        listens || return 0
    done
    return 1
}

# Starts the server of an engine.
start_server() {
    case $engine in
        redis) set -- redis-server --bind 127.0.0.1 --port "$port" --save '' --appendonly yes --dir "$temp" ;;
        mqtt) set -- mosquitto -p "$port" ;;
        nats) set -- nats-server -a 127.0.0.1 -p "$port" -js -sd "$temp/nats" ;;
    esac
    "$@" >>"$temp/server" 2>&1 &
    server=$!
    servers+=("$server")
    disown "$server"
    until_so 100 listens || { tail -n 3 -- "$temp/server"; return 1; }
}

# Whether an engine has a server, or needs none.
is_served() {
    case $engine in
        file) ;;
        redis | mqtt | nats) install_for "$engine" && find_port && start_server ;;
        *) return 1 ;;
    esac
}

# Kills the server, if there is one, and starts it again.
kill_server() {
    kill -9 -- "$server" && until_so 50 has_ended "$server"
}
renew_server() {
    [ "$engine" != file ] || return 0
    kill_server
    sleep 0.3
    start_server
}

# A copy of the recipes, in which what comes of the bus is spoilt: every tenth line is lost, and another
# one in ten comes twice. Nothing comes behind so many lines as U_STOP_AFTER says, if it is set.
spoil_recipes() {
    local script
    cp -R -- "$top/recipes" "$temp/spoilt"
    for script in file redis mqtt nats; do
        cat >>"$temp/spoilt/$script.sh" <<'END'
eval "whole_$(declare -f from)"
from() { whole_from "$1" | sed -u -e '0~10d' -e '5~10p' | stop; }
stop() { if [ -n "${U_STOP_AFTER-}" ]; then sed -u "${U_STOP_AFTER}q"; sleep 600; else cat; fi; }
END
    done
}

# The program, which leaves its number in a file first.
cat >"$temp/u" <<END
#!/bin/sh
echo \$\$ >"\$U_NUMBER"
exec "$binary" "\$@"
END
chmod +x "$temp/u"

# Starts a member of that name by the scripts in a folder. Its report and what it says go to files.
start_member() {
    local name=$1
    rm -f -- "$temp/$name.number"
    U_BINARY=$temp/u U_NUMBER=$temp/$name.number "$2/member" "$engine:$place" "$program" \
        "$argument" --report "$temp/$name.report" "${@:3}" 2>"$temp/$name.said" &
    member[$name]=$!
    started+=($!)
}

# Whether a member's program runs; kills one, which has to run.
is_running() {
    [ -s "$temp/$1.number" ] && kill -0 "$(cat -- "$temp/$1.number")" 2>/dev/null
}
kill_member() {
    is_running "$1" && kill -9 -- "$(cat -- "$temp/$1.number")"
}

# How many lines of firings were seen on the bus, but for forged ones, and whether so many were.
seen() {
    grep '^f ' "$temp/seen" | grep -cvxF "$forged"
}
has_seen() {
    [ "$(seen)" -ge "$1" ]
}

# Whether the last of the forged lines was seen.
has_seen_forged() {
    grep -qxF -- "${forged##*$'\n'}" "$temp/seen"
}

# Whether the process has ended.
has_ended() {
    ! kill -0 "$1" 2>/dev/null
}

# Whether a member ends with status 0 in time, and its report is that of the run, but for the
# number of parked firings where the second word says so.
reports() {
    local but=${2:-nothing} status
    until_so 600 has_ended "${member[$1]}" || return 1
    wait "${member[$1]}"
    status=$?
    [ "$status" -eq 0 ] || { echo "$engine: $1 ended with status $status"; tail -n 3 -- "$temp/$1.said"; return 1; }
    diff <(sed "/^$but /d" "$temp/wanted") <(sed "/^$but /d" "$temp/$1.report")
}

# Whether a member said that a line is no firing, and that one is none of the job.
has_notices() {
    grep -q 'u: line [0-9]* not allowed' "$temp/$1.said" && grep -q 'u: line [0-9]* not of this job' "$temp/$1.said"
}

# Calls `from` or `to` of the engine's recipe.
recipe() {
    . "$top/recipes/lines.sh"
    . "$top/recipes/$engine.sh"
    find_place "$place"
    "$1" "$(key_of "$program" "$argument")"
}

# Starts a job of its own, and leaves its number in `job`.
start_job() {
    set -m
    "$@" 2>/dev/null &
    job=$!
    set +m
    started+=("-$job")
}

# All lines of the bus go to a file.
see_all() {
    recipe from >"$temp/seen"
}

# Lines that no member prints: some are no firing's text, some are none of the program, and some are firings
# that no run of it makes.
forged=$(printf '%s\n' x f 'f -.main.17.1 9' 'f -.main.99.1 1' 'f -.main.1.1 01' 'f -.main.1.1' \
    'f (-.main.L1.1).main.5.1 9 9' 'f -.main.1.1 -7')

# Sends them again and again. In the file a line without its end comes too, now and then.
forge() {
    local round
    for ((round = 1; ; round++)); do
        sleep 0.1
        printf '%s\n' "$forged"
        if [ "$engine" = file ] && [ $((round % 10)) -eq 0 ]; then printf 'f -.main.1' >>"$place"; fi
    done | recipe to
}

# A new run of that name on the argument.
begin() {
    argument=$2 place=127.0.0.1:$port
    [ "$engine" != file ] || place=$temp/$1.log
    firings=$((10 * argument + 15))
    "$binary" run "$program" "$argument" --firings 1000000 >"$temp/wanted"
    : >"$temp/seen"
    start_job see_all
    seeing=$job
    sleep 0.5
    begun=$(now)
}

# The end of a run: a row.
end() {
    local spent=$(($(now) - begun)) lines before=-1
    # Who sees all lines may be behind.
    until lines=$(seen) && [ "$lines" -eq "$before" ] || [ "$SECONDS" -ge 300 ]; do
        before=$lines
        sleep 0.3
    done
    kill -- "-$seeing" 2>/dev/null
    printf '%8s %8s %10s %10d.%02d %10d\n' "$engine" "$1" "$firings" $((lines / firings)) \
        $((lines * 100 / firings % 100)) $((firings * 1000000 / (spent + 1)))
}

# A leader and two followers on a bus that carries all lines. The followers come first, since some buses
# keep nothing for those who come late.
run_calm() {
    begin calm "$size"
    start_member one "$top/recipes" --follow
    start_member two "$top/recipes" --follow
    sleep 0.3
    start_member leader "$top/recipes"
    expect 'the report of a leader' reports leader
    expect 'the report of a follower' reports one
    expect 'the report of another follower' reports two
    end calm
}

# A run on a bus that loses lines and repeats them, with forged ones, where a member comes late, and the
# leader and the server are killed and started again.
run_rough() {
    local forging
    begin rough $((size - 1))
    start_job forge
    forging=$job
    # Whoever reads the bus from its start gets a forged line before it has fired all there is.
    until_so 100 has_seen_forged
    # For each line it fires eight times at most, so it is not at its end once its lines stop.
    U_STOP_AFTER=$((firings / 12)) start_member leader "$temp/spoilt" --burst 8
    start_member follower "$temp/spoilt" --follow
    until_so 300 has_seen $((firings / 8))
    start_member late "$temp/spoilt" --follow
    until_so 300 has_seen $((firings / 4))
    expect 'the leader is killed before its end' kill_member leader
    start_member again "$temp/spoilt" --burst 8
    until_so 300 has_seen $((firings / 2))
    expect 'the server is killed and starts again' renew_server
    expect 'the report of a follower of the one that was killed' reports follower parked
    expect 'the report of a member that came late' reports late parked
    expect 'the report of the member that was killed' reports again parked
    kill -- "-$forging" 2>/dev/null
    expect 'notices of forged lines' has_notices follower
    end rough
}

# A server that dies for good under a leader and a follower, and a member that never had one.
run_away() {
    [ "$engine" != file ] || return 0
    export U_PATIENCE=3
    begin away $((size + 1))
    U_STOP_AFTER=$((firings / 12)) start_member leader "$temp/spoilt" --burst 8
    start_member follower "$top/recipes" --follow
    until_so 300 has_seen $((firings / 8))
    kill_server
    expect 'the server dies before the end of a leader' is_running leader
    expect 'the server dies before the end of a follower' is_running follower
    expect 'the report of a leader whose server died' reports leader
    expect 'the report of a follower whose server died' reports follower
    start_member alone "$top/recipes" --follow
    expect 'the report of a member without a server' reports alone
    unset U_PATIENCE
    kill -- "-$seeing" 2>/dev/null
}

# Whether no process has the mark of a member in its environment.
left_nothing() {
    ! grep -qs "U_NUMBER=$temp/$1.number" /proc/[0-9]*/environ
}

# A member that is killed by -9, with a server or without one.
run_killed() {
    begin killed $((size + 2))
    start_member killed "$top/recipes" --follow
    until_so 50 is_running killed && kill -9 -- "${member[killed]}" && wait "${member[killed]}" 2>/dev/null
    expect 'a member that is killed by -9 leaves no process' until_so 100 left_nothing killed
    kill -- "-$seeing" 2>/dev/null
}

[ "$#" -gt 0 ] || set -- file redis mqtt nats
PATH=$PATH:/usr/sbin
spoil_recipes
printf '%8s %8s %10s %13s %10s\n' bus run firings lines/firing firings/s
for engine in "$@"; do
    port=0 wrong=$failed
    expect 'a server, or an engine that needs none' is_served
    [ "$failed" -eq "$wrong" ] || continue
    run_calm
    run_rough
    run_away
    run_killed
done
finish
