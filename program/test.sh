#!/usr/bin/env bash
# Tries the program: program/test.sh PROGRAM RECORDING, where RECORDING is the built program/recording.c. It prints each row that fails and exits with 1
# where one does. Rows are in the order of README's "Files, messages, status": files, messages, status, options, bytes.
set -u
program=$(realpath "$1")
recording=$(realpath "$2")
here=$(cd "$(dirname "$0")" && pwd)
folder=$(mktemp -d) || exit 2
trap 'chmod -R u+w "$folder"; rm -rf "$folder"' EXIT
cd "$folder" || exit 2

rows=0
bad=0
row=

# wrong WORDS..: the row does not hold
wrong() {
    printf 'program/test.sh: %s: %s\n' "$row" "$*"
    bad=$((bad + 1))
}

# run STATUS ARGUMENT..: runs the program; its standard error is kept in the file said, its standard output in the file out
run() {
    local want=$1 got
    shift
    rows=$((rows + 1))
    row="equalizer $*"
    "$program" "$@" > out 2> said < "${input:-/dev/null}"
    got=$?
    [ "$got" -eq "$want" ] || { wrong "status $got, not $want"; cat said; }
}

# says LINE: a line of the last run's messages
says() {
    grep -qxF -- "equalizer: $1" said || { wrong "it does not say: $1"; cat said; }
}

# last LINE: the last line of its messages
last() {
    [ "$(tail -n 1 said)" = "equalizer: $1" ] || { wrong "it does not say last: $1"; cat said; }
}

# silent: nothing on standard output
silent() {
    [ ! -s out ] || wrong 'something is on standard output'
}

# same FILE FILE, none FILE..
same() {
    cmp -s "$1" "$2" || wrong "$1 is not $2"
}

none() {
    local f
    for f in "$@"; do
        [ ! -e "$f" ] && [ ! -L "$f" ] || wrong "$f is there"
    done
}

"$recording" make samples marked || exit 2
head -c 3200 samples > short                # 400 samples
head -c 804 short > cut                     # 100 and a half
"$program" --in short --out good --marks good.marks --numbers good.numbers 2> said || { cat said; exit 2; }

# ---- files

cp short r.part
run 1 --in r.part --out r
says 'the input is r.part, as which this output is written: rename it first; nothing was written'
same r.part short
none r
rm r.part

run 1 --in short --out x --marks x
says 'x and x are one file; nothing was written'
none x x.part

run 1 --in short --out x --marks ./x
says './x and x are one file; nothing was written'
none x x.part

run 1 --in short --out x --numbers x
says 'x and x are one file; nothing was written'
none x x.part

run 1 --in short --out y --marks x --numbers ./x
says './x and x are one file; nothing was written'
none x x.part y y.part

run 1 --in short --out y --numbers x --curve ./x
says './x and x are one file; nothing was written'
none x x.part y y.part

echo old > a
ln a b
run 1 --in short --out a --curve b
says 'b and a are one file; nothing was written'
none a.part b.part
rm a b

run 1 --in short --out r --marks r.part
says 'r.part is what r is written as until it is whole; nothing was written'
none r r.part r.part.part

run 1 --in short --out r.part --marks r
says 'r.part is what r is written as until it is whole; nothing was written'
none r r.part r.part.part

run 1 --in short --out r --numbers r.part
says 'r.part is what r is written as until it is whole; nothing was written'
none r r.part r.part.part

run 1 --in short --out x --marks r.part --numbers r
says 'r.part is what r is written as until it is whole; nothing was written'
none r r.part r.part.part x x.part

cp short x
run 1 --in x --marks x --out y
says 'x is the input, which this output would replace; nothing was written'
same x short
none y y.part x.part
run 1 --in x --numbers x --out y
says 'x is the input, which this output would replace; nothing was written'
same x short
none y y.part x.part
rm x

cp short x
rows=$((rows + 1))
row='equalizer --in x >> x'
"$program" --in x >> x 2> said
[ $? -eq 1 ] || wrong 'the status is not 1'
says 'standard output is the input; nothing was written'
same x short
rm x

mkfifo pipe
run 1 --in short --out pipe
says 'cannot write pipe: it is a named pipe, for which standard output serves; nothing was written'
[ -p pipe ] || wrong 'pipe is no named pipe any more'
none pipe.part
ln -s pipe link
run 1 --in short --marks link --out x
says 'cannot write link: it is a named pipe, for which standard output serves; nothing was written'
none x x.part link.part
run 1 --in short --numbers link --out x
says 'cannot write link: it is a named pipe, for which standard output serves; nothing was written'
none x x.part link.part
rm pipe link

ln -s /dev/null null
run 1 --in short --out null
says 'cannot write null: it is a device, for which standard output serves; nothing was written'
[ -L null ] || wrong 'null is no link any more'
none null.part
rm null

mkdir box
run 1 --in short --out box
says 'cannot write box: it is a folder; nothing was written'
none box.part
ln -s box link
run 1 --in short --out x --curve link
says 'cannot write link: it is a folder; nothing was written'
none link.part x x.part
rm link
rmdir box

echo keep > target
ln -s target y.part
run 1 --in short --out y
says 'y.part is there already: another run writes it, or one that failed left it; look at it, then rename or remove it; nothing was written'
[ "$(cat target)" = keep ] || wrong 'the target of a link was written'
none y
rm y.part target

ln -s nowhere y.part
run 1 --in short --out y
says 'y.part is there already: another run writes it, or one that failed left it; look at it, then rename or remove it; nothing was written'
none y nowhere
rm y.part

# a second run with the same output, while the first waits for its input
mkfifo slow
"$program" --in slow --out z 2> first < /dev/null &
waits=$!
exec 9> slow
for _ in $(seq 100); do [ -e z.part ] && break; sleep 0.05; done
run 1 --in short --out z
says 'z.part is there already: another run writes it, or one that failed left it; look at it, then rename or remove it; nothing was written'
cat short >&9
exec 9>&-
wait "$waits" || wrong 'the first run failed'
same z good
rm z slow first

cp short x
run 0 --in x --out x
same x good
none x.part
rm x

echo old > old
run 0 --in short --out old --marks old.marks --numbers old.numbers
same old good
same old.marks good.marks
same old.numbers good.numbers
none old.part old.marks.part old.numbers.part
rm old old.marks old.numbers

echo old > x
run 0 --in short --out y --numbers x
same x good.numbers
none x.part y.part
rm x y

ln -s elsewhere link
run 0 --in short --out link
same link good
[ ! -L link ] || wrong 'the link was not replaced by the file'
rm link

# ---- messages

run 1 --in absent --out x
says 'cannot read absent: there is no such file or folder; nothing was written'
none x x.part
silent

run 1 --in . --out x
says 'cannot read .: it is a folder; nothing was written'
none x x.part

run 1 --in short --out absent/x
says 'cannot make absent/x.part: there is no such file or folder; nothing was written'

echo before > x
run 1 --in cut --out x --marks x.marks --numbers x.numbers
says '100 samples: 100 heard, 0 blank, 0 spilled, 0 silent, 0 off scale'
says 'the input is truncated: 4 bytes are left over, and a sample has 8'
says 'x is from before this run and was left as it is; what this run served is in x.part'
says 'what was served is in x.marks.part'
says 'what was served is in x.numbers.part'
last 'FAILED: the input was not served whole'
[ "$(cat x)" = before ] || wrong 'the old file was changed'
cmp -s -n 800 x.part good || wrong 'x.part has not what was served'
head -c 100 good.numbers > served
same x.numbers.part served
none x.marks x.numbers
rm x x.part x.marks.part x.numbers.part served

rows=$((rows + 1))
row='equalizer --text > /dev/full'
"$program" --in short --text > /dev/full 2> said
[ $? -eq 1 ] || wrong 'the status is not 1'
says 'writing standard output failed: no space is left on the device'
last 'FAILED: the input was not served whole'

rows=$((rows + 1))
row='equalizer > /dev/full'
"$program" --in short > /dev/full 2> said
[ $? -eq 1 ] || wrong 'the status is not 1'
says 'writing standard output failed: no space is left on the device'

rows=$((rows + 1))
row='equalizer --out x with a limit on the size of files'
(ulimit -f 1; trap '' XFSZ; exec "$program" --in short --out x 2> said)
[ $? -eq 1 ] || wrong 'the status is not 1'
says 'writing x.part failed: the file would be too large'
says 'what was served is in x.part'
last 'FAILED: the input was not served whole'
none x
rm x.part

rows=$((rows + 1))
row='equalizer --numbers x with a limit on the size of files'
(ulimit -f 1; trap '' XFSZ; exec "$program" --in samples --numbers x > /dev/null 2> said)
[ $? -eq 1 ] || wrong 'the status is not 1'
says 'writing x.part failed: the file would be too large'
says 'what was served is in x.part'
last 'FAILED: the input was not served whole'
none x
rm x.part

rows=$((rows + 1))
row='equalizer < a closed input'
"$program" --out x 2> said <&-
[ $? -eq 1 ] || wrong 'the status is not 1'
last 'FAILED: the input was not served whole'
rm -f x.part

run 0 --in short --text
[ "$(wc -l < out)" -eq 400 ] || wrong 'not 400 lines'
[ "$(grep -c '#' out)" -eq 0 ] || wrong 'a message is on standard output'
says '400 samples: 300 heard, 100 blank, 0 spilled, 0 silent, 0 off scale'

# zeros are silent; (3e38, 3e38) and then (0, 0) give a symbol that is off scale
head -c 80 /dev/zero > zeros
run 0 --in zeros --out x --marks x.marks --numbers x.numbers
says '10 samples: 0 heard, 0 blank, 0 spilled, 10 silent, 0 off scale'
[ "$(od -An -tu1 x.marks | tr -d ' \n')" = 3333333333 ] || wrong 'not every mark is 3'
[ "$(od -An -tx1 x.numbers | tr -d ' \n')" = ffffffffffffffffffff ] || wrong 'not every number is 255'
printf '\346\261\141\177\346\261\141\177\0\0\0\0\0\0\0\0' > large
run 0 --in large --taps 3 --frequency 0.125 --text
says '2 samples: 1 heard, 0 blank, 0 spilled, 0 silent, 1 off scale'
[ "$(tail -n 1 out)" = 'inf 0 4 255' ] || wrong "the second line is $(tail -n 1 out)"
rm x x.marks x.numbers zeros large

run 0 --in short --text --out lines
silent
[ "$(wc -l < lines)" -eq 400 ] || wrong 'not 400 lines'
rm lines

# ---- status, and chains

run 1 --in cut --out one --then --in short --out two
none one two two.part
rm one.part

run 0 --in short --out one --then --in short --out two --taps 5
same one good
rm one two

run 2 --in short --out one --then --in short --out two --taps 4
says 'refused, number 3: forward taps even or outside 3 to 63'
none one one.part two two.part

run 2 --in short --out one --then --tap 3
says 'there is no option --tap; --help lists them'
none one one.part

for refused in '--feedback 64:refused, number 2: over 63 feedback taps' \
    '--mu-cma 0:refused, number 5: mu-cma outside 0.00001 to 1' \
    '--mu-dd 1.0000001:refused, number 6: mu-dd outside 0.00001 to 1' \
    '--bandwidth -0.01:refused, number 7: bandwidth neither 0 nor 0.0001 to 0.2'; do
    # shellcheck disable=SC2086
    run 2 --in short --out none ${refused%%:*}
    says "${refused#*:}"
    none none none.part
done

# ---- options

run 0 -h
grep -q '^usage: equalizer' out || wrong 'no help'
cp out help
run 0 --help
same out help
run 0 --version
[ "$(cat out)" = 'equalizer 0.2.0' ] || wrong 'no version'

rows=$((rows + 1))
row='equalizer --help > /dev/full'
"$program" --help > /dev/full 2> said
[ $? -eq 1 ] || wrong 'the status is not 1'

run 0 --in=short --out=x --taps=11
same x good
rm x

input=short run 0 --in - --out -
same out good
run 0 --in short --out x --marks -
same out good.marks
rm x
run 0 --in short --out x --numbers -
same out good.numbers
rm x
run 2 --in short --marks -
says 'two outputs cannot both be standard output; nothing was written'
run 2 --in short --numbers -
says 'two outputs cannot both be standard output; nothing was written'
run 2 --in short --out x --marks - --numbers -
says 'two outputs cannot both be standard output; nothing was written'
none x x.part

run 2 --taps 1000
says '--taps does not take 1000: it takes an odd number from 3 to 63'
run 2 --taps=1000
says '--taps does not take 1000: it takes an odd number from 3 to 63'
run 2 --feedback -1
says '--feedback does not take -1: it takes a whole number from 0 to 63'
run 2 --block 0
says '--block does not take 0: it takes a whole number from 1 to 4096'
run 2 --block 4097
says '--block does not take 4097: it takes a whole number from 1 to 4096'
run 2 --cma-symbols 4294967295
says '--cma-symbols does not take 4294967295: it takes a whole number from 0 to 4294967294, or never'
run 2 --mu-cma x
says '--mu-cma does not take x: it takes a number from 0.00001 to 1, of at most 15 digits'
run 2 --mu-dd 0.01x
says '--mu-dd does not take 0.01x: it takes a number from 0.00001 to 1, of at most 15 digits'
run 2 --bandwidth 1e-23
says '--bandwidth does not take 1e-23: it takes 0, or a number from 0.0001 to 0.2, of at most 15 digits'
run 2 --frequency 1234567890123456
says '--frequency does not take 1234567890123456: it takes a number, held to -0.125 to 0.125, of at most 15 digits'
run 2 --constellation 32qam
says '--constellation does not take 32qam: it takes bpsk, qpsk, 8psk, 16qam or 64qam'
run 2 --path slow
says '--path does not take slow: it takes plain or fast'
run 2 --out ''
says '--out does not take an empty value: it takes the name of a file, or - for standard output'
run 2 --numbers ''
says '--numbers does not take an empty value: it takes the name of a file, or - for standard output'
run 2 --taps
says '--taps takes a value; --help says which'
run 2 --text=yes
says '--text=yes takes no value'
run 2 short
says 'there is no option short; --help lists them'
long=$(printf '%05000d' 0)
run 2 --in "$long"
says 'an argument is longer than 4096 bytes: 0000000000000000000000000000000000000000..'
run 1 --in short --out "${long:0:4095}"
run 2 --in="$long"
says 'an argument is longer than 4096 bytes: --in=00000000000000000000000000000000000..'

# ---- bytes: the Rust's symbols of a recording with dropouts in the first 4,096 samples, across their end and among the last, by every option that
# changes bytes (runs.txt, see oracle/README.md), from a file and from a pipe, by blocks of any length and by both paths

while IFS= read -r line; do
    sum=${line%% *}
    options=${line#"$sum"}
    for way in '' '--block 1' '--block 4095 --path plain' '--block 7' '--path plain'; do
        # shellcheck disable=SC2086
        run 0 --in samples --out symbols --marks marks --numbers numbers $options $way
        [ "$(sha256sum < symbols)" = "$sum  -" ] || wrong "the symbols are not the Rust's"
        same marks marked
        # shellcheck disable=SC2086
        "$recording" numbers symbols marked numbered $options || wrong 'the numbers cannot be worked out'
        same numbers numbered
        says '13000 samples: 12828 heard, 172 blank, 0 spilled, 0 silent, 0 off scale'
        # shellcheck disable=SC2086
        cat samples | "$program" $options $way > symbols 2> said || wrong 'it fails from a pipe'
        [ "$(sha256sum < symbols)" = "$sum  -" ] || wrong "from a pipe the symbols are not the Rust's"
        rows=$((rows + 1))
    done
    # shellcheck disable=SC2086
    run 0 --in samples --text --block 1000 $options
    "$recording" text symbols marked numbered < out || wrong 'the text is not the symbols'
done < "$here/runs.txt"

# from a pipe a block is there once it is served
mkfifo feed
rows=$((rows + 1))
row='a block from a pipe'
"$program" --block 100 < feed > live 2> said &
exec 9> feed
head -c 800 samples >&9
for _ in $(seq 100); do [ "$(stat -c %s live)" -eq 800 ] && break; sleep 0.05; done
[ "$(stat -c %s live)" -eq 800 ] || wrong 'the first block is not there while the pipe is open'
exec 9>&-
wait
rm feed live

# --block 1 from a file is written by as few calls as without it
if strace -o calls true 2> said; then
    rows=$((rows + 1))
    row='calls of write with --block 1'
    strace -e trace=write -o calls "$program" --in samples --out symbols --block 1 2> said
    [ "$(grep -c 'write([3-9]' calls)" -le 8 ] || wrong "$(grep -c 'write([3-9]' calls) calls"
fi

echo "program/test.sh: $rows rows, $bad failed"
[ "$bad" -eq 0 ]
