# What ./run shows of a line, in plain words: a part of tools/test_run.sh, which has `check`, `check_lines` and `has`.
# shellcheck shell=bash disable=SC2154 # `work` is that file's folder

# Malformed lines, each with a part of what is said of it.
readonly m=3ff8000000000000
readonly faulty=(
    '' 'the line is empty'
    ' ' 'spaces and no word'
    $'\xef\xbb\xbfcompile 1 2 1 1' 'byte order mark'
    $'\xff\xfec\x01' 'UTF-16'
    $'compile 1 2 1 1\r' 'carriage return stands at the end'
    $'compile\t1 2 1 1' 'a tab stands at column 8'
    $'compile 1 2 1 1\x07' 'the byte \x07 stands at column 16'
    $'compile 1 2 1 \xc3\xa9' 'the byte \xc3 stands at column 15'
    ' compile 1 2 1 1' 'in front of the first word'
    'compile 1 2 1 1 ' 'behind the last word'
    'compile 1  2 1 1' 'two spaces stand at column 10'
    'Compile 1 2 1 1' 'write it in lower case'
    'seats please' 'is no call; the calls are compile, list'
    'compile 1 +2 1 1' 'word 3, "+2", stands for size 1 of 1: a number has no plus'
    'compile 1 02 1 1' 'a number has no zero in front'
    'compile 1 -2 1 1' 'it may not be below 0'
    'compile 1 2 1 -0' '0 has no minus'
    'compile 1 2.0 1 1' 'no whole number'
    'compile 1 2 1 9223372036854775808' 'it does not lie in -9223372036854775808 to 9223372036854775807'
    "compile 1 $(printf '9%.0s' {1..5000}) 1 1" 'it does not lie in 0 to 18446744073709551615'
    'compile 33' 'at most 32 of them'
    'compile 2 2' 'the line ends after 1 of 2 sizes; the count does not match the items'
    'compile 1 2' 'the line ends where the count of the strides should stand'
    'compile 1 2 1 1 1' '1 word too many: the line should end before word 6, "1"'
    'list 1 4 1 1 0 0' 'the line ends where the end of the range should stand'
    'list 1 4 1 1 0 0 4 4 4097' 'at most 4096 of them'
    "join $m 0 0 $m 0 2" 'word 7, "2", stands for the bad mark: it does not lie in 0 to 1'
    'finish number 1' 'neither acc nor refused'
    'finish refused 4294967296' 'it does not lie in 0 to 4294967295'
    'finish acc 3FF8000000000000 0 0' 'lower case'
    'finish acc 3ff800000000000 0 0' 'and this has 15'
    'finish acc 0x3ff8000000000000 0 0' 'no 0x in front'
    'finish acc 1.5 0 0' "here $m"
    'finish acc one 0 0' 'the 16 lower-case hex digits of its bits'
    'Figure 1 2 1 1' 'write it in lower case'
    'ordered 1 2 1 1 0 0' 'the line ends where the end of the range should stand'
    'ordered 1 4 1 1 0 0 4 4097' 'at most 4096 of them'
    "ordered 1 2 1 1 0 0 2 2 $m" 'the line ends after 1 of 2 values; the count does not match the items'
    "figure 1 2 1 1 0 0 2 2 $m 1.5" "word 11, \"1.5\", stands for value 2 of 2: a float is written by the 16 hex digits of its bits, here $m"
    "figure 1 1 1 1 0 0 1 1 $m 0" '1 word too many: the line should end before word 11, "0"'
    'First 1 2 1 1' 'write it in lower case'
    'first 1 2 1 1 0 0 2' 'the line ends where the count of the values should stand'
    "first 1 2 1 1 0 0 2 2 $m ${m}0" 'word 11, "3ff80000000000000", stands for value 2 of 2: a float has 16 hex digits, those of its bits, and this has 17'
    'read' 'the line ends where the count of the bytes should stand'
    'read 2 1' 'the line ends after 1 of 2 bytes; the count does not match the items'
    'read 1 256' 'word 3, "256", stands for byte 1 of 1: it does not lie in 0 to 255'
    'read 4097' 'at most 4096 of them'
    'Write 0 0 0 0 0 0' 'write it in lower case'
    'write 1 4 1 1 0 0 4' 'the line ends where the count of the bytes should stand'
    'write 33' 'at most 32 of them'
    'write 0 0 0 -1 4 0' 'word 5, "-1", stands for the start of the range: it may not be below 0'
    'write 0 0 0 0 4 1 7 7' '1 word too many: the line should end before word 9, "7"'
    'Step 1 2 1 1' 'write it in lower case'
    "step 1 2 1 1 0 0 2 2 $m" 'the line ends after 1 of 2 values; the count does not match the items'
    "step 1 2 1 1 0 0 2 2 $m $m" 'the line ends where the next element number should stand'
    "step 1 2 1 1 0 0 2 2 $m $m -1" 'word 12, "-1", stands for the next element number: it may not be below 0'
    "step 1 2 1 1 0 0 2 2 $m $m 0 1.5" "word 13, \"1.5\", stands for m: a float is written by the 16 hex digits of its bits, here $m"
    "step 1 2 1 1 0 0 2 2 $m $m 0 $m 0 2" 'word 15, "2", stands for the bad mark: it does not lie in 0 to 1'
    "step 1 2 1 1 0 0 2 2 $m $m 0 $m 0 0" 'the line ends where the count of pieces should stand'
    "step 1 2 1 1 0 0 2 2 $m $m 0 $m 0 0 18446744073709551616" 'stands for the count of pieces: it does not lie in 0 to 18446744073709551615'
    "step 1 2 1 1 0 0 2 2 $m $m 0 $m 0 0 1 1" '1 word too many: the line should end before word 17, "1"'
    'Ranges 1 2 1 1' 'write it in lower case'
    'ranges 1 2 1 1 0 1 0' 'the line ends where the count of the ends should stand'
    'ranges 1 2 1 1 0 1 -1' 'word 8, "-1", stands for start 1 of 1: it may not be below 0'
    'ranges 1 2 1 1 0 4097' 'at most 4096 of them'
    "ranges 1 2 1 1 0 1 0 1 2 2 $m $m 1 1.5" "stands for m place 1 of 1: a float is written by the 16 hex digits of its bits, here $m"
    "ranges 1 2 1 1 0 1 0 1 2 2 $m $m 1 $m 1 0 1 256" 'stands for bad place 1 of 1: it does not lie in 0 to 255'
    "ranges 1 2 1 1 0 1 0 1 2 2 $m $m 1 $m 1 0" 'the line ends where the count of the bad places should stand'
    "ranges 1 2 1 1 0 1 0 1 2 2 $m $m 1 $m 1 0 1 0 1" '1 word too many: the line should end before word 20, "1"'
    'Windows 1' 'write it in lower case'
    "windows 2 $m" 'the line ends after 1 of 2 values; the count does not match the items'
    'windows 4097' 'at most 4096 of them'
    "windows 1 $m" 'the line ends where the width of the windows should stand'
    "windows 1 $m -1" 'word 4, "-1", stands for the width of the windows: it may not be below 0'
    "windows 1 $m 18446744073709551616" 'stands for the width of the windows: it does not lie in 0 to 18446744073709551615'
    "windows 1 $m 1 1 1.5" "stands for m place 1 of 1: a float is written by the 16 hex digits of its bits, here $m"
    "windows 1 $m 1 1 $m 1 0" 'the line ends where the count of the bad places should stand'
    "windows 1 $m 1 1 $m 1 0 1 256" 'stands for bad place 1 of 1: it does not lie in 0 to 255'
    "windows 1 $m 1 1 $m 1 0 1 0 1" '1 word too many: the line should end before word 11, "1"'
    "$(head -c 131073 /dev/zero | tr '\0' x)" 'the line has 131073 bytes'
)

faults() {
    check_lines 'malformed lines' 3 "${faulty[@]}"
    has "$work/out" 'line 7: compile 1 2 1 1\x07' || die 'malformed lines: a control character is not escaped'
    has "$work/err" "$((${#faulty[@]} / 2)) of $((${#faulty[@]} / 2)) lines are malformed" || die 'malformed lines: not counted'
    check 'an example' 3 'line 2: seats please' '11 of 13 lines are malformed' run_sh 'examples/malformed.cases'
}

numbers() {
    local tiny=0010000000000000 huge=7fefffffffffffff zero=0000000000000000 two='1 2 1 1 0 0 2 2'
    check_lines 'numbers' 0 \
        'finish acc 3ff0000000000000 -1075 0' '    0.0: underflow, m × 2^e is too small for a double' \
        'finish acc bff0000000000000 -2000 0' '    -0.0: underflow' \
        'finish acc 3ff0000000000000 1024 0' '    inf: overflow, m × 2^e is too large for a double' \
        'finish acc 3ff0000000000000 -1074 0' '    5e-324' \
        'finish acc 3ff0000000000000 0 1' '    NaN: the accumulator is bad' \
        "product 1 2 1 1 0 0 2 2 $tiny $tiny" '    0.0: underflow, the product is too small for a double; reduce gives it as m × 2^e' \
        "product 1 2 1 1 0 0 2 2 $huge f${huge#?}" '    -inf: overflow, the product is too large for a double' \
        'product 1 1 1 1 0 0 1 1 0000000000000000' '    NaN: a bad rate came in' \
        "ordered $two $m $m" '    2.25' \
        "ordered $two $m $tiny" '    3.337610787760802e-308' \
        "ordered $two $tiny $tiny" '    0.0: a rate is 0, or the product became too small for a double' \
        "ordered $two b${m#?} $zero" '    -0.0: a rate is 0, or the product became too small for a double' \
        "ordered $two $huge f${huge#?}" '    -inf: a rate is infinite, or the product became too large for a double' \
        "ordered 1 2 1 1 0 0 3 2 $m $m" '    refused 6 (RANGE_PAST_END)' \
        "figure $two $m $m" '    2.25' \
        "figure $two $m $zero" '    0.0: a rate is 0, or the product became too small for a double' \
        "figure $two 7ff0000000000000 $zero" '    NaN: a rate is a NaN, or an infinity met a zero' \
        "figure 1 2 0 0 0 2 2 $m $m" '    refused 1 (STRIDE_LENGTH_MISMATCH)' \
        'list 1 2 1 1 4 0 2 6 3 -1 -2 -3' '    offsets 4 5' \
        'finish refused 1000' '    refused 1000'
}

# Where the first bad rate stands, and what it is.
bad_rates() {
    local zero=0000000000000000 two='1 2 1 1 0 0 2 2'
    check_lines 'bad rates' 0 \
        "first $two $m $m" '    no visited rate is bad' \
        "first $two $m $zero" '    the first bad rate is element 1, at offset 1: 0.0, a zero' \
        "first 1 2 1 -1 1 0 2 2 8000000000000000 8000000000000001" '    the first bad rate is element 1, at offset 0: -0.0, a zero' \
        "first $two 0000000000000001 800fffffffffffff" '    no visited rate is bad' \
        "first $two fff0000000000000 $zero" '    the first bad rate is element 0, at offset 0: -inf, an infinity' \
        "first 1 2 1 1 1 1 2 3 $zero $m 7ff0000000000001" '    the first bad rate is element 1, at offset 2: a NaN' \
        "first 1 2 1 1 0 0 3 2 $m $zero" '    refused 6 (RANGE_PAST_END)'
    check 'an example of subnormal rates' 0 '    1.066161054867543 × 2^-3139' '' run_sh 'examples/long-run.cases'
    has "$work/out" 'element 11, at offset 13: 0.0, a zero' || die 'a subnormal rate is taken for a bad one'
}

# What a job holds, as words and as it was read; the bytes that were written, and no others of the buffer.
jobs() {
    local end='1 0 0 160 0 0 0 192' none='5 0 0 96 0 0 0 128'
    check_lines 'jobs' 0 \
        "read 16 $none $end" '    a job: sizes none, strides none, base -3, elements 0 to 1 (not included)' \
        "read 24 4 0 0 32 3 0 0 64 $none $end" '    a job: sizes 4, strides -2, base -3, elements 0 to 1 (not included)' \
        'read 0' '    refused 11 (BAD_WORD)' \
        "read 17 $none $end 0" '    refused 11 (BAD_WORD)' \
        "read 28 4 0 0 32 0 0 0 0 64 0 0 0 $none $end" '    refused 12 (NUMBER_TOO_LONG)' \
        'write 0 0 -3 0 1 18 7 7 7 7 7 7 7 7 7 7 7 7 7 7 7 7 7 7' "    16 bytes: $none $end" \
        'write 0 0 -3 0 1 3 7 7 7' '    refused 13 (JOB_BUFFER_TOO_SHORT)' \
        'write 1 4 0 0 0 4 0' '    refused 1 (STRIDE_LENGTH_MISMATCH)'
    has "$work/out" 'read: 4 words, by kind and payload: base 5, start 0, end 1, finish 0; and 1 of the 4 bytes of another' ||
        die 'jobs: the words that were sent are not shown'
    has "$work/out" 'read: no word' || die 'jobs: a job without bytes is not shown'
    ! grep -q '16 bytes: .* 7$' "$work/out" || die 'jobs: bytes past the job are shown'
    check 'an example of jobs' 0 '    a job: sizes 2 3, strides 6 1, base 7, elements 0 to 6 (not included)' '' run_sh 'examples/job.cases'
}

# Where a reduction goes on, what there is so far, and how many pieces were worked. Runs of two, with a gap between them.
steps() {
    local rows="2 2 2 2 1 3 0 1 4 5 $m $m $m $m $m" limit=4503599627370496
    check_lines 'steps' 0 \
        "step $rows 1 7ff8000000000000 -7 1 1" '    not finished: element 2 is next, with 1.5 × 2^0; pieces worked: 1' \
        "step $rows 2 $m 0 0 1" '    finished: 1.6875 × 2^1; pieces worked: 1' \
        "step $rows 2 $m -3 1 9" '    finished: 1.5 × 2^-3, bad; pieces worked: 1' \
        "step $rows 1 $m 0 0 18446744073709551615" '    finished: 1.6875 × 2^1; pieces worked: 2' \
        "step $rows 1 $m 0 0 0" '    refused 14 (NO_PIECES)' \
        "step $rows 3 $m 0 0 1" '    refused 15 (NOT_A_PIECE)' \
        "step $rows 2 4000000000000000 0 0 1" '    refused 9 (ACCUMULATOR_OUT_OF_RANGE)' \
        "step $rows 2 $m $limit 0 1" '    refused 10 (EXPONENT_OUT_OF_RANGE)'
    has "$work/out" '1.5 .. and 1 more; from element 1, the start (ignored: nan × 2^-7, bad), at most 1 of the pieces' ||
        die 'steps: a bookmark at the start is not shown'
    has "$work/out" '1.5 .. and 1 more; from element 2 with 1.5 × 2^-3, bad, at most 9 of the pieces' ||
        die 'steps: a bookmark is not shown'
    check 'an example of steps' 0 '    finished: 1.2578482756360152 × 2^-1382; pieces worked: 200' '' run_sh 'examples/step.cases'
}

# Each range with its accumulator, and nothing of the places past them; a refusal by its number.
ranges() {
    local two="1 2 1 1 0" held="3 $m $m $m 3 7 7 7 3 9 9 9" zero=0000000000000000
    check_lines 'ranges' 0 \
        "ranges $two 2 0 1 2 1 2 2 $m $zero $held" '    0 to 1: 1.5 × 2^0; 1 to 2: 1.0 × 2^-1023, bad' \
        "ranges $two 2 0 0 2 2 2 2 $m $m $held" '    0 to 2: 1.125 × 2^1; 0 to 2: 1.125 × 2^1' \
        "ranges $two 0 0 2 $m $m $held" '    accepted, with nothing to write' \
        "ranges $two 2 0 1 2 3 1 2 $m $m $held" '    refused 6 (RANGE_PAST_END)' \
        "ranges $two 2 0 1 1 1 2 $m $m $held" '    refused 16 (ANSWER_BUFFER_TOO_SHORT)' \
        "ranges $two 0 0 1 $m $held" '    refused 7 (ELEMENT_OUTSIDE)'
    has "$work/out" 'ranges 0 to 1, 1 to 2 (ends not included), 2 values 1.5 0.0, buffers of 3, 3, 3 for m, e, bad' ||
        die 'ranges: the ranges that were asked are not shown'
    has "$work/out" 'base 0, 2 starts and 1 ends, 2 values' || die 'ranges: lists of different lengths are not shown'
    check 'an example of ranges' 0 '    1.5589143053837038 × 2^-1' '' run_sh 'examples/ranges.cases'
}

# Each window with its accumulator, and nothing of the places past the last; a refusal by its number.
windows() {
    local held="3 $m $m $m 3 7 7 7 3 9 9 9" zero=0000000000000000
    check_lines 'windows' 0 \
        "windows 3 $m $m $zero 2 $held" '    0 to 2: 1.125 × 2^1; 1 to 3: 1.5 × 2^-1023, bad' \
        "windows 3 $m $m $m 1 $held" '    0 to 1: 1.5 × 2^0; 1 to 2: 1.5 × 2^0; 2 to 3: 1.5 × 2^0' \
        "windows 3 $m $m $m 3 $held" '    0 to 3: 1.6875 × 2^1' \
        "windows 3 $m $m $m 0 $held" '    refused 17 (' \
        "windows 3 $m $m $m 4 $held" '    refused 17 (' \
        "windows 0 1 $held" '    refused 17 (' \
        "windows 4 $m $m $m $m 1 $held" '    refused 16 (ANSWER_BUFFER_TOO_SHORT)'
    has "$work/out" 'windows: 3 values 1.5 1.5 0.0, each 2 in a row (ends not included), buffers of 3, 3, 3 for m, e, bad' ||
        die 'windows: what was asked is not shown'
    grep -qxF '    0 to 3: 1.6875 × 2^1' "$work/out" || die 'windows: places past the last window are shown'
    check 'an example of windows' 0 '10 to 17: 1.8386592297517113 × 2^-1; 11 to 18' '' run_sh 'examples/windows.cases'
}

# Windows of three seats, listed both ways: one answer if they go back; one for each order if all strides are the same.
axes_listed() {
    check 'an example of axes in any order' 0 '    1.6500184234554203 × 2^-1' '' run_sh 'examples/order.cases'
    [ "$(grep -cxF '    1.65001842345542 × 2^-1' "$work/out")" -eq 3 ] || die 'the order in which axes are listed counts'
    [ "$(grep -cxF '    offsets 3 4 5 2 3 4 1 2 3 0 1 2' "$work/out")" -eq 2 ] || die 'the order in which axes are listed counts'
}
