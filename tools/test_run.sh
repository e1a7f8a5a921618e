#!/usr/bin/env bash
# Tests of ./run, of what it shows and of how the program fails, on bad input: tools/test_run.sh
# It wants the program built (crates/replay/out/replay) and proves nothing: a stand-in takes the place of rt.
set -euo pipefail
cd "$(dirname "${BASH_SOURCE[0]}")/.."
work=$(mktemp -d)
trap 'rm -rf "$work"' EXIT
readonly work copy=$work/copy program=crates/replay/out/replay
readonly good='compile 1 2 1 1' answer='2 elements, runs of 2 by 1, no outer axes'
count=0

die() {
    printf 'test_run: %s\n' "$*" >&2
    exit 1
}

# Whether a file has a text; where the text is empty, whether the file is.
has() {
    if [ -z "$2" ]; then [ ! -s "$1" ]; else grep -qF -e "$2" "$1"; fi
}

# check NAME CODE OUT ERR COMMAND..: the command's exit code, a text of its output, and one of its standard error.
check() {
    local name=$1 code=$2 out=$3 err=$4 status=0
    shift 4
    "$@" >"$work/out" 2>"$work/err" || status=$?
    if [ "$status" -ne "$code" ] || ! has "$work/out" "$out" || ! has "$work/err" "$err"; then
        printf 'exit code %s, output and standard error:\n' "$status" >&2
        head -n 20 "$work/out" "$work/err" >&2
        die "$name: expected exit code $code, output with '$out' and standard error with '$err'"
    fi
    count=$((count + 1))
}

# ./run of the copy, with words of the shell behind it, as: run_sh '- <&-'
run_sh() {
    bash -c "cd '$copy' && ./run $1"
}

# A tree of its own, in which rt is a script that says what $work/says holds, and the program is the one that was built.
make_copy() {
    mkdir -p "$copy/crates/refusals/src" "$copy/crates/replay/out" "$work/bin" "$work/few"
    cp run crates.txt "$copy"
    cp -R tools examples "$copy"
    cp crates/refusals/src/lib.rt "$copy/crates/refusals/src/"
    cp "$program" "$copy/$program"
    cat >"$work/bin/rt" <<EOF
#!/bin/sh
cat '$work/says'
[ ! -e '$work/makes' ] || cp '$work/makes' out/replay
exit "\$(cat '$work/code')"
EOF
    chmod +x "$work/bin/rt"
    printf 'rt: nothing has changed since the last proved build, by out/replay.stamp, so nothing is checked now\n' >"$work/says"
    printf '0\n' >"$work/code"
    printf '%s\n' "$good" >"$work/good"
    PATH=$work/bin:$PATH
}

calls() {
    check 'help' 0 'exit codes:' '' run_sh '--help'
    check 'short help' 0 'usage: ./run [FILE]' '' run_sh '-h'
    check 'two files' 2 '' 'usage: ./run [FILE], and 2 arguments came' run_sh 'a b'
    check 'an option' 2 '' '--fast is no option' run_sh '--fast'
    check 'no argument' 0 'underflow, the product is too small' '' run_sh ''
    has "$work/out" '    0.0: a rate is 0, or' || die 'no argument: the figure of a hall with a rate of 0 is not shown'
    check 'help that is not written' 1 '' 'cannot be written' run_sh '--help >/dev/full'
}

inputs() {
    check 'a file' 0 "$answer" '' run_sh "'$work/good'"
    check 'standard input' 0 "$answer" '' run_sh "- <'$work/good'"
    check 'a pipe' 0 "$answer" '' run_sh "- < <(cat '$work/good')"
    check 'a pipe by its name' 0 "$answer" '' run_sh "/dev/stdin < <(cat '$work/good')"
    check 'a substituted process' 0 "$answer" '' run_sh "<(cat '$work/good')"
    check 'a file, with standard input closed' 0 "$answer" '' run_sh "'$work/good' <&-"
    check 'standard input closed' 2 '' 'standard input is closed' run_sh '- <&-'
    check 'a missing file' 2 '' "there is no file 'missing'" run_sh 'missing'
    check 'an empty name' 2 '' "there is no file ''" run_sh "''"
    check 'a folder' 2 '' "'examples' is a folder" run_sh 'examples'
    check 'a file that gives an error' 2 '' 'cannot be read' run_sh '/proc/self/mem'
    check 'an empty file' 2 '' "'/dev/null' is empty" run_sh '/dev/null'
    if [ "$(id -u)" -ne 0 ]; then
        cp "$work/good" "$work/locked"
        chmod a-r "$work/locked"
        check 'a file that may not be read' 2 '' 'may not be read' run_sh "'$work/locked'"
    fi
}

outputs() {
    check 'output closed' 1 '' 'standard output is closed' run_sh '>&-'
    check 'output full' 1 '' 'cannot write to standard output' run_sh '>/dev/full'
    check 'standard error closed' 2 '' '' run_sh 'missing 2>&-'
    yes "$good" | head -n 100000 >"$work/many" || true
    check 'a reader that has enough' 0 'compile: sizes 2, strides 1' '' run_sh "'$work/many' | head -n 1"
}

# The commands that ./run needs, and no others.
tools_missing() {
    local tool
    for tool in bash cat dirname mktemp python3 rm sed tail; do
        ln -sf "$(command -v "$tool")" "$work/few/$tool"
    done
    check 'rt missing' 1 '' 'rt is not to be found' env PATH="$work/few" bash -c "cd '$copy' && ./run"
    rm "$work/few/python3"
    ln -s "$work/bin/rt" "$work/few/rt"
    check 'python3 missing' 1 '' 'python3 is not to be found' env PATH="$work/few" bash -c "cd '$copy' && ./run"
    check 'no temporary folder' 1 '' 'set TMPDIR' env TMPDIR="$work/none" bash -c "cd '$copy' && ./run"
}

builds() {
    local crate crates
    for crate in laws refusals replay; do
        printf 'fn %s::one: proved\nstatements std: modules loaded=1 checked=0\nlibrary text: modules loaded=1 checked=0\n' "$crate"
        printf 'crate %s: modules loaded=1 checked=0\naxioms std: none reached of the 2 declared\nlogic=proved functions=1\n' "$crate"
    done >"$work/says"
    check 'progress' 0 "$answer" 'proved laws (' run_sh "'$work/good'"
    grep -qE '^proved refusals \([0-9]+ s\), 3 of ' "$work/err" || die 'progress: a crate that has not changed is not counted'
    crates=$(sed -n 's/.* of \([0-9]*\)$/\1/p' "$work/err" | sort -u)
    grep -qE "^proved replay \([0-9]+ s\), $crates of $crates\$" "$work/err" || die 'progress: the last crate is not said'
    ! has "$work/err" 'proved text' || die 'progress: a crate that has not changed is said'
    if [ "$crates" -le 1 ] || [ "$crates" -gt "$(grep -c '^[a-z].*:' crates.txt)" ]; then die "progress: '$crates' crates"; fi
    mv "$copy/$program" "$work/makes"
    check 'first build' 0 "$answer" "proving $crates crates" run_sh "'$work/good'"
    rm -f "$copy/$program" "$work/makes"
    check 'no program' 1 '' "$program is missing" run_sh "'$work/good'"
    printf 'rt: the library text did not build, so nothing above it was checked\n' >"$work/says"
    printf '1\n' >"$work/code"
    check 'a failed build' 1 '' 'the library text did not build' run_sh "'$work/good'"
    has "$work/err" 'crates/replay && rt run' || die 'a failed build: what to do is not said'
    : >"$work/says"
    printf '0\n' >"$work/code"
    cp "$program" "$copy/$program"
    check 'nothing to build' 0 "$answer" '' run_sh "'$work/good'"
}

# stand_in LINE..: a script in the place of the program.
stand_in() {
    rm -f "$copy/$program"
    printf '%s\n' '#!/bin/sh' "$@" >"$copy/$program"
    chmod +x "$copy/$program"
}

programs() {
    local line='compile 0 2 2 1 0 0 0 0 0 0 0 0 0 0 0 0 0 0 0 0 0 0 0 0 0 0 0 0 0 0 0 0 0 0 0 0 0 0 0 0 0 0 0 0 0 0 0 0 0 0 0 0 0'
    printf '%s\n%s\n' "$good" "$good" >"$work/two"
    stand_in "echo '$line'"
    check 'fewer answers' 1 "$answer" 'fewer answers than cases: line 2 has none' run_sh "'$work/two'"
    stand_in "echo '$line'" "echo '$line'" 'echo malformed'
    check 'more answers' 1 "$answer" 'more answers than cases: answer 3 has no line' run_sh "'$work/two'"
    stand_in "echo '$line'" 'echo refused 7'
    check 'the answer to another call' 1 "$answer" 'answer 2, refused 7, is none to line 2' run_sh "'$work/two'"
    stand_in "echo '$line'" "echo 'replay: cannot write to standard output' >&2"
    check 'a program that stops' 1 '' 'replay: cannot write to standard output; see' run_sh "'$work/two'"
    stand_in 'kill -KILL $$'
    check 'a program that is ended' 1 '' 'ended with status 137' run_sh "'$work/two'"
    cp "$program" "$copy/$program"
}

replay_sh() {
    bash -c "$program $1"
}

# The program has no exit status: what it says on standard error stands in for one.
replay_itself() {
    check 'replay, input closed' 0 '' 'replay: cannot read standard input' replay_sh '<&-'
    check 'replay, input a folder' 0 '' 'replay: cannot read standard input' replay_sh '<tools'
    check 'replay, no input' 0 '' '' replay_sh '</dev/null'
    check 'replay, output closed' 0 '' 'replay: cannot write to standard output' replay_sh "<'$work/good' >&-"
    check 'replay, output full' 0 '' 'replay: cannot write to standard output' replay_sh "<'$work/many' >/dev/full"
    [ "$(wc -l <"$work/err")" -eq 1 ] || die 'replay, output full: it goes on after a failed write'
}

# check_lines NAME CODE LINE PART LINE PART ..: of each line ./run says what has that part.
check_lines() {
    local name=$1 code=$2 lines=("${@:3}") said i
    for ((i = 0; i < ${#lines[@]}; i += 2)); do printf '%s\n' "${lines[i]}"; done >"$work/lines"
    run_sh "'$work/lines'" >"$work/out" 2>"$work/err" && i=0 || i=$?
    [ "$i" -eq "$code" ] || die "$name: exit code $i and not $code: $(cat "$work/err")"
    mapfile -t said < <(grep '^    ' "$work/out")
    for ((i = 0; i < ${#lines[@]}; i += 2)); do
        [[ ${said[i / 2]-} = *"${lines[i + 1]}"* ]] ||
            die "$name, line $((i / 2 + 1)): '${lines[i + 1]}' is not in '${said[i / 2]-}'"
        count=$((count + 1))
    done
}

# What is shown of each kind of line.
# shellcheck source=tools/test_shown.sh
. tools/test_shown.sh

# Each refusal has a name and a condition, in the file that is their home.
refusals() {
    local cases=() code said ones
    for code in {1..17}; do cases+=("finish refused $code" "    refused $code ("); done
    check_lines 'refusals' 0 "${cases[@]}"
    said=$(grep -cE '^    refused [0-9]+ \([A-Z_]+\): .*[^.]$' "$work/out")
    [ "$said" -eq 17 ] || die "refusals: $said of 17 have a name and a condition"
    # The condition says the limit that the program has.
    ones=$(printf ' 1%.0s' {1..16})
    check_lines 'the limit of axes' 0 "compile 16$ones 16$ones" '    1 elements' \
        "compile 17$ones 1 17$ones 1" '    refused 2 (TOO_MANY_AXES): the layout has more than 16 axes'
    mv "$copy/crates/refusals" "$work/refusals"
    check 'no names of refusals' 1 '' 'refusals/src/lib.rt, where the refusals are named, cannot be read' run_sh "'$work/good'"
    mkdir -p "$copy/crates/refusals/src"
    printf 'pub enum Refusal {\n    EmptyRange = 5,\n}\n' >"$copy/crates/refusals/src/lib.rt"
    check 'a refusal with no condition' 1 '' 'its condition' run_sh "'$work/good'"
    cp "$work/refusals/src/lib.rt" "$copy/crates/refusals/src/lib.rt"
}

# What is said of a line and what the program answers to it agree on every stored case.
stored() {
    python3 -B tools/stored_shown.py || die 'what show.py says of the stored cases is not what the program answers'
    count=$((count + 1))
}

[ -x "$program" ] || die "$program is not there; build it by ./run or rt ci"
[ -f crates/refusals/src/lib.rt ] || die 'crates/refusals/src/lib.rt is not there; it names the refusals'
make_copy
for group in calls inputs outputs tools_missing builds programs replay_itself faults numbers bad_rates jobs steps ranges windows axes_listed refusals stored; do
    "$group"
done
printf 'test_run: ok, %s checks\n' "$count"
