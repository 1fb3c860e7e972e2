#!/usr/bin/env bash
# Runs the built program on the cases of tests/cases/*.txt, and compares standard output, standard error
# and the exit status with what stands there; runs the examples of README.md, docs/LANGUAGE.md,
# docs/NOTATION.md, docs/TUTORIAL.md, docs/REPLICAS.md and docs/programs; compares the manual page and
# the completions with `--help`, and what README counts with what there is; and compares programs/ and
# the example of docs/LIBRARY.md with the code that tests run. The last line is 'N passed, M failed'.
#
# The lines of a case:
#   case: NAME            begins a case
#   words: WORDS          the command line, words between single spaces; '' is an empty word, \xHH
#                         a byte, TEMP the folder of the files that this script makes
#   stdin: FILE           standard input; `endless` (it never ends) and `closed` stand for
#                         themselves; without the line it is empty
#   input: TEXT           a line of standard input; without TEXT an empty line
#   line NAME: TEXT       a line of the file TEMP/NAME, which only this case has
#   stdout: WHERE         `full` (every write fails), `closed`, or `nobody` (a pipe that no one
#                         reads); without the line it is compared
#   folder: FOLDER        where the program is run; without the line at the top of the repository
#   by: PROGRAM           what is run in place of the built program
#   memory: KIB           how much address space it may have
#   output has: TEXT      the output has TEXT somewhere; then its other bytes don't matter
#   error: LINE           standard error is this one line; without a line `error` it is empty
#   error has: TEXT       standard error has TEXT somewhere
#   status: NUMBER        the exit status
#   two spaces and TEXT   a line of standard output
# Lines that begin with `#` and empty lines say nothing. CASES names the files of cases that are run, and nothing
# else is then looked at.
. "$(dirname -- "${BASH_SOURCE[0]}")/common.sh" || exit 2
cd -- "$top" || exit 2
need_program

# The files that are too large or too odd to stand in the repository.
make_files() {
    local k
    truncate -s 67108864 -- "$temp/longest"
    truncate -s 67108865 -- "$temp/too_long"
    printf '\x7fELF\x00\x01\xff\xfe\n\x80\n' >"$temp/binary"
    printf 'u-program 1\r\nblock main\r\n1 0 begin ->\r\n' >"$temp/carriage_returns"
    head -c 69 programs/double.u >"$temp/without_last_newline"
    head -n 2 programs/double.u >"$temp/cut_after_line_2"
    : >"$temp/empty"
    printf 'def main(n) {\n' >"$temp/cut_short.ul"
    cp programs/double.u "$temp/stdin"
    {
        echo 'u-program 1'
        for k in {1..64}; do printf 'block b%s\n1 0 begin ->\n' "$k"; done
        echo 'block last'
    } >"$temp/blocks_65"
    {
        printf 'u-program 1\nblock main\n1 0 begin ->\n'
        for k in {2..1000}; do printf '%s 0 add ->\n' "$k"; done
    } >"$temp/statements_1000"
    make_checkpoints
    make_bus
}

# Checkpoints of the sum of 3 after five firings, whole, torn and spoilt.
make_checkpoints() {
    printf '%s\n' 'u-history 1' 'f -.main.1.1 3' 'f -.main.2.1 3' 'f -.main.3.1 3' 'f -.main.4.1 0' \
        'f (-.main.L1.1).main.5.1 3' 'end 5' >"$temp/whole"
    head -c -1 -- "$temp/whole" >"$temp/torn"
    sed '3s/3$/03/' "$temp/whole" >"$temp/leading_zero"
    sed 's/^end 5$/end 4/' "$temp/whole" >"$temp/wrong_count"
    sed '1s/1/2/' "$temp/whole" >"$temp/of_version_2"
    sed '1s/1/3/' "$temp/whole" >"$temp/of_version_3"
    sed '2s/.*/f -.main.99.1 1/' "$temp/whole" >"$temp/other_firing"
    sed '2s/$/ 1 2 3 4/' "$temp/whole" >"$temp/five_values"
    sed '2s/$/ 1 2 3 4 5/' "$temp/whole" >"$temp/six_values"
    { head -n 3 -- "$temp/whole"; sed '1,2d;s/^end 5$/end 6/' "$temp/whole"; } >"$temp/firing_twice"
    { head -n 1 -- "$temp/whole"; sed '1d;$d' "$temp/whole" | tac; echo 'end 5'; } >"$temp/last_first"
    sed '/^f -.main.1.1 /d;s/^end 5$/end 4/' "$temp/last_first" >"$temp/first_left_out"
    sed '4s/^/f -.main.99.1 1\n/;s/^end 5$/end 6/' "$temp/last_first" >"$temp/other_among"
    { cat -- "$temp/whole"; printf 'x'; } >"$temp/byte_behind"
    { sed 's/ 3$/ 9999/' "$temp/whole" | head -n 5; echo 'end 4'; } >"$temp/four_of_9999"
    printf 'u-history 1\nf -.main.17.1 9\nend 1\n' >"$temp/never_enabled"
    { echo 'u-history 1'; head -c 32769 /dev/zero | tr '\0' x; echo; } >"$temp/long_line"
    { echo 'u-history 1'; seq -f 'f -.main.17.1 %.0f' 1 1000001; echo 'end 1000001'; } >"$temp/too_many"
}

# What a member of a bus reads: a firing of the double of 4, an empty line, a firing that no run makes, two
# lines that are none of the job, one that is too long, and one that is cut short.
make_bus() {
    printf '%s\n' 'f -.main.1.1 4' '' 'f -.main.3.1 9' 'no line' 'f -.main.9.1 1' >"$temp/bus"
    { head -c 32769 /dev/zero | tr '\0' x; echo; printf 'f -.main.2.1 4 4'; } >>"$temp/bus"
    ln -s -- "$binary" "$temp/u"
}

begin_case() {
    name=$1 words='' stdin=/dev/null stdout='' folder=$top by=$binary memory=''
    output='' status=0
    output_has=() error_has=() error='' made=()
}

# Adds a line to a file that only this case has. What it is given is `NAME: TEXT` or `NAME:`.
add_line() {
    local file=$temp/${1%%:*} text=${1#*:}
    made+=("$file")
    printf '%s\n' "${text# }" >>"$file"
}

# The command line of the case, as the list `line`.
split_words() {
    local word
    line=()
    for word in $words; do
        [ "$word" = "''" ] && word=''
        word=${word//TEMP/$temp}
        printf -v word '%b' "$word"
        line+=("$word")
    done
}

# Runs the program in the case's folder.
start() {
    cd -- "$folder" || exit 99
    if [ -n "$memory" ]; then ulimit -v "$memory"; fi
    timeout 60 "$by" "${line[@]}"
}

# Runs the program with the standard output that the case names.
start_out() {
    case $stdout in
        full) start >/dev/full ;;
        closed) start >&- ;;
        nobody) (sleep 0.2; start; echo $? >"$temp/status") | true; return "$(cat "$temp/status")" ;;
        *) start >"$temp/out" ;;
    esac
}

# Runs the program with the standard input that the case names.
start_in() {
    case $stdin in
        endless) yes 2>/dev/null | start_out; return "${PIPESTATUS[1]}" ;;
        closed) start_out <&- ;;
        *) start_out <"${stdin//TEMP/$temp}" ;;
    esac
}

# Says what stands in a file, its first 4,000 bytes at most.
show() {
    echo "$1"
    head -c 4000 -- "$temp/$2" | sed 's/^/    /'
}

# Compares what came on a stream, which a file has, with the whole text that is wanted, or looks for texts in it.
judge_whole() {
    printf '%s' "$3" >"$temp/wanted"
    cmp -s -- "$temp/wanted" "$temp/$2" || { show "standard $1, wanted:" wanted && show 'got:' "$2"; }
}
judge_parts() {
    local text
    for text in "${@:3}"; do
        grep -qF -- "$text" "$temp/$2" || show "standard $1 has no '$text':" "$2"
    done
}

# What is wrong, a line each, on standard output.
judge() {
    [ "$1" = "$status" ] || echo "the status is $1, not $status"
    [ -z "$error" ] && [ ${#error_has[@]} -gt 0 ] || judge_whole error err "${error:+$error$'\n'}"
    judge_parts error err "${error_has[@]}"
    [ ${#output_has[@]} -gt 0 ] || judge_whole output out "$output"
    judge_parts output out "${output_has[@]}"
}

end_case() {
    local got
    [ -n "$name" ] || return 0
    split_words
    folder=${folder//TEMP/$temp}
    : >"$temp/out"
    (start_in) 2>"$temp/err"
    got=$?
    count "$name"$'\n'"  words: $words" "$(judge "$got")"
    [ ${#made[@]} -eq 0 ] || rm -f -- "${made[@]}"
    name=''
}

make_files
name=''
while IFS= read -r row || [ -n "$row" ]; do
    case $row in
        'case: '*) end_case; begin_case "${row#case: }" ;;
        'words:') ;;
        words:\ * | stdin:\ * | stdout:\ * | folder:\ * | by:\ * | memory:\ * | error:\ * | status:\ *)
            printf -v "${row%%: *}" '%s' "${row#*: }"
            ;;
        'input:'*) stdin=TEMP/input; add_line "$row" ;;
        'line '*) add_line "${row#line }" ;;
        'output has: '*) output_has+=("${row#output has: }") ;;
        'error has: '*) error_has+=("${row#error has: }") ;;
        '  '*) output+=${row:2}$'\n' ;;
        '' | '#'*) ;;
        *) echo "tests/cases has a line that says nothing: $row" >&2; failed=$((failed + 1)) ;;
    esac
done < <(cat ${CASES:-tests/cases/*.txt})
end_case
[ -z "${CASES:-}" ] || finish

# Runs the example whose command and wanted output stand in `command` and `wanted`.
end_example() {
    local got
    [ -n "$command" ] || return 0
    got=$(timeout 60 bash -c "${command//.\/u /\"$binary\" }" 2>&1 </dev/null)
    expect_same "an example of $document"$'\n'"  $command" "$wanted" "$got"
    command=''
}

# The examples of a document: '    $ COMMAND', and then the lines that it prints.
run_examples() {
    local row
    document=$1 command='' wanted=''
    while IFS= read -r row || [ -n "$row" ]; do
        case $row in
            '    $ '*) end_example; command=${row#'    $ '} wanted='' ;;
            '    '*) [ -z "$command" ] || wanted+=${wanted:+$'\n'}${row:4} ;;
            *) end_example ;;
        esac
    done <"$document"
    end_example
}

for page in README.md docs/LANGUAGE.md docs/NOTATION.md docs/TUTORIAL.md docs/REPLICAS.md docs/programs/*.md; do
    run_examples "$page"
done

# What bash completes these words to, the last of which is at the cursor.
completed() {
    COMP_WORDS=("$@") COMP_CWORD=$(($# - 1))
    _u
    printf '%s\n' "${COMPREPLY[@]}" | sort
}

# The options that the help of a command lists.
options_of() {
    "$binary" "$@" --help | grep -Eo -- ' --[a-z]+' | tr -d ' ' | sort -u
}

expect_same 'share/man/man1/u.1 is what share/manual.py writes' "$(cat share/man/man1/u.1)" \
    "$(share/manual.py "$binary")"
. share/bash-completion/completions/u
commands=$("$binary" --help | sed -n '/^Commands:$/,/^$/s/^  \([a-z]*\) .*/\1/p')
expect_same 'the commands are completed' "$(sort <<<"$commands")" "$(completed u '')"
expect_same 'the options of u are completed' "$(options_of)" "$(completed u -)"
for command in $commands; do
    expect_same "the options of $command are completed" "$(options_of "$command")" "$(completed u "$command" -)"
done
expect_same 'a file is completed' docs/LANGUAGE.md "$(completed u check docs/LANG)"
expect_same 'a number is not completed' '' "$(completed u run programs/double.u '')"
expect_same 'a checkpoint is completed' docs/LANGUAGE.md "$(completed u restore --help a 3 docs/LANG)"

# The programs that tests run by calls of the library are constants of u_plain, and have to be files of programs.
while read -r name text; do
    expect_same "$name of u_plain is a program" "$(cat "programs/${name,,}.u")" "$(printf '%b' "$text")"
done < <(sed -n '/^pub const [A-Z_]*: &\[u8\] =$/{N;s/^pub const \([A-Z_]*\).*\n *b"\(.*\)";$/\1 \2/p}' \
    crates/u_plain/src/examples.rt)

# What `check` says of the promises of each program of tests/determinate: what stands beside the program.
for file in tests/determinate/*.u; do
    expect_same "what check says of $file" "$(cat "${file%.u}.out")" \
        "$("$binary" check "$file" --strict --determinate 2>&1)"
done
# The programs, and the pictures of their runs, stories and worlds: what tests/drawn.py finds wrong with them.
for file in programs/*.u; do
    expect_same "$file is determinate" determinate "$("$binary" check "$file" --determinate | tail -n 1)"
    expect_same "the pictures of runs and worlds of $file" '' "$(U_BINARY=$binary tests/drawn.py "$file" 2>&1)"
done

# The pictures of the documents are drawn from what `draw` prints today.
expect_same 'no picture of docs/pictures is old' '' "$(U_BINARY=$binary docs/pictures/draw.sh | sed '$d')"

# What `explain` says of each program of a folder: the line for which `check` refuses it, without its `u: `,
# and behind it what stands beside the program, where KINDS is the list of kinds of version 1. The exit status is
# that of `check`.
expect_explained() {
    local folder=$1 file status kinds=$(<tests/explain/kinds)
    shift
    for file in "$folder"/*.u; do
        "$binary" check "$file" >/dev/null 2>"$temp/said"
        status=$?
        { sed 's/^u: //' "$temp/said"; sed "s/KINDS/$kinds/" "${file%.u}.out"; } >"$temp/wanted"
        "$binary" explain "$file" "$@" >"$temp/got" 2>"$temp/err"
        [ $? -eq "$status" ] || echo "the status is not $status" >>"$temp/err"
        count "what is said of $file" "$(cat -- "$temp/err"; diff -- "$temp/wanted" "$temp/got")"
    done
}
expect_explained tests/explain
expect_explained tests/explain/strict --strict

# What is said behind a terminal of how far a command is: what tests/watched.py finds wrong with it.
expect_same 'run says how far it is' '' \
    "$(tests/watched.py "$binary" run programs/sum.u 99998 --firings 1000000 2>&1)"
"$binary" save programs/sum.u 59998 --firings 1000000 >"$temp/saved"
expect_same 'restore says how far it is' '' \
    "$(tests/watched.py "$binary" restore programs/sum.u 59998 "$temp/saved" 2>&1)"

# The example of docs/LIBRARY.md is a program that the gate runs.
expect_same 'the example of docs/LIBRARY.md is u_example' "$(cat crates/u_example/src/main.rt)" \
    "$(sed -n '/^```rust$/,/^```$/p' docs/LIBRARY.md | sed '1d;$d')"
finish
