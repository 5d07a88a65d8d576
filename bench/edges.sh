#!/bin/bash
# Runs the built programs at the edges of what they promise: where no contract sees what they do, as it stands in `main` or
# is a matter of files and threads, and beyond the sizes that tests have.
#
#     bench/edges.sh [--built]
#
# Each run has to end by itself, with the status, the line and the bytes that stand here. Prints of each kind how many
# runs it had and how they ended, and last how many kinds passed; status 1 where one did not. It takes a few seconds, and
# wants a C compiler (bench/refuse.c counts threads). Without --built the programs are proved and built first, where that
# is needed.
root=$(CDPATH='' cd -- "$(dirname -- "$0")/.." && pwd) || exit 1
folder=$(mktemp -d) || exit 1
trap 'rm -r "$folder"' EXIT
# shellcheck source=bench/refusals.sh
. "$root/bench/refusals.sh"
bring fdbench
bring fdstudy
make_refuse
# from here on every path is a short one
cd "$folder" || exit 1
fdbench=./fdbench fdstudy=./fdstudy
cp "$root/examples/one_crash.toml" one.toml
echo ok > ok
: > nothing

# Runs the arguments after the first two, and requires the ending $1 and, whatever the status, the bytes of the file $2.
wants() {
    local ending=$1 bytes=$2
    shift 2
    endings=("$ending")
    $limit "$@" > out 2> err
    ended $?
    cmp -s out "$bytes" || is_wrong "other bytes: $*"
}

# A name of $1 characters.
name_of() {
    printf "%$1s" '' | tr ' ' n
}

begin "fdbench ends with each status of its table"
wants 0 ok $fdbench check one.toml
wants "1 fdbench: scenario: MissingKey" nothing $fdbench check nothing
wants "2 fdbench: words: Form" nothing $fdbench check
wants "3 fdbench: plan: WindowZero" nothing $fdbench run one.toml --workers 2 --window 0
endings=("4 fdbench: run: Write")
$limit $fdbench check one.toml > /dev/full 2> err
ended $?
end

begin "fdstudy ends with each status of its table"
sed 's/^seed/limit = 11\nseed/' one.toml > eleven.toml
$fdstudy check one.toml > checked
wants 0 checked $fdstudy check one.toml
wants "1 nothing: MissingKey*" nothing $fdstudy check nothing
wants "2 fdstudy: words: Form: the options of a study need --seeds" nothing $fdstudy check one.toml --threads 2
wants "3 fdstudy: run: Limit" nothing $fdstudy letters eleven.toml
endings=("4 fdstudy: run: Write")
$limit $fdstudy check one.toml > /dev/full 2> err
ended $?
end

# the window with ticks 2 and 3 has four of twelve entries, and that with ticks 8 and 9 the last two
begin "a limit that is passed in the second window, or in the last: the rows of those before it"
$fdbench list one.toml --print trace > listed
head -3 listed > rows
sed 's/^seed/limit = 3\nseed/' one.toml > three.toml
wants "3 fdbench: run: Limit" rows $fdbench run - --workers 2 --window 2 --print trace < three.toml
head -11 listed > rows
[ "$(wc -c < rows)" -eq 235 ] || is_wrong "these rows have other than 235 bytes"
wants "3 fdbench: run: Limit" rows $fdbench run - --workers 2 --window 2 --print trace < eleven.toml
wants "3 fdbench: run: Limit" nothing $fdbench list - --print trace < eleven.toml
wants "3 fdbench: run: Limit" nothing $fdbench run - --workers 2 --window 2 --print report < eleven.toml
end

# each word is needed: the last one alone says that the output is that of one run
begin "orders of many arguments"
wants 0 listed $fdbench run - --workers 2 --window 2 --print trace < one.toml
columns=detector.timeout,detector.grow,link.loss,seed,run,undetected
printf '%s\n' $columns 5,1,0,3,1,0 5,1,0,4,2,0 > table
wants 0 table $fdstudy sweep one.toml --seeds 3..=4 --vary detector.timeout=5 --vary detector.grow=1 --over link.loss=0 \
    --shard 1/1 --threads 2 --columns $columns --each run
end

begin "long paths"
for length in 79 80 81 90 255; do
    path=$(name_of "$length")
    cp one.toml "$path"
    wants 0 ok $fdbench check "$path"
    wants 0 checked $fdstudy check "$path"
    rm "$path"
done
path=$(name_of 250)
path=$path/$path/$path/$path
mkdir -p "$path"
cp one.toml "$path"
wants 0 ok $fdbench check "$path/one.toml"
wants 0 checked $fdstudy check "$path/one.toml"
end

begin "arguments that are not UTF-8"
for word in $'\xff' $'one.toml\xc3'; do
    wants "2 fdbench: words: Form" nothing $fdbench check "$word"
    wants "2 fdstudy: words: NoText: a word is not UTF-8" nothing $fdstudy check "$word"
done
end

# how far standard input was read says its place in the file
begin "no more than 8,388,609 bytes of standard input are read"
truncate -s 9000000 long
for program in fdbench fdstudy; do
    case $program in
        fdbench) line="fdbench: input: too long" ;;
        fdstudy) line="-: more than 8388608 bytes" ;;
    esac
    exec 3< long
    wants "1 $line" nothing ./$program check - <&3
    taken=$(sed -n 's/^pos:[[:space:]]*//p' /proc/self/fdinfo/3)
    [ "$taken" -le 8388609 ] || is_wrong "$program took $taken bytes"
    exec 3<&-
done
end

# what is left in the pipe, which the script holds open for writing too, was not read; a program that wants more hangs
begin "no more than 8,388,609 bytes of a file are read, and no end is waited for"
mkfifo pipe
for program in fdbench fdstudy; do
    case $program in
        fdbench) line="fdbench: input: too long" ;;
        fdstudy) line="pipe: more than 8388608 bytes" ;;
    esac
    for more in 1 2 12345; do
        exec 3<> pipe
        timeout 20 head -c $((8388608 + more)) long >&3 &
        wants "1 $line" nothing timeout 20 ./$program check pipe
        wait $!
        left=$(timeout 20 head -c $((more - 1)) <&3 | wc -c)
        [ "$left" -eq $((more - 1)) ] || is_wrong "$program left $left bytes of $((more - 1))"
        exec 3>&-
    done
done
end

begin "8,388,608 bytes are not too many"
{ cat one.toml; echo '#'; } > most.toml
yes '#' | head -c $((8388608 - $(wc -c < most.toml))) >> most.toml
wants 0 ok $fdbench check most.toml
wants 0 ok $fdbench check - < most.toml
wants 0 checked $fdstudy check - < most.toml
end

# Runs the arguments after the first, which have to start $1 threads.
starts() {
    local count=$1
    shift
    rm -f started
    $limit env "LD_PRELOAD=$folder/refuse.so" "STARTED=$folder/started" "$@" > out 2> err
    ended $?
    [ "$(cat started)" = "$count" ] || is_wrong "$(cat started) threads, not $count: $*"
}

begin "check, list, show, letters and draw start no thread" 0
starts 0 $fdbench check one.toml
starts 0 $fdbench list one.toml --print both
starts 0 $fdstudy check one.toml
starts 0 $fdstudy show one.toml --seeds 1..=9 --point 1
starts 0 $fdstudy letters one.toml
starts 0 $fdstudy draw one.toml --as letters
end

# Scenarios are read, and then runs are made, by batches, of which the first has one for each of N threads: that of the
# program itself and N - 1 that are started. The batches of seven by 3 threads have 3 and 4, or 3, 3 and 1.
begin "a sweep has as many threads as it is told, and one where there is one processor" 0
starts 0 $fdstudy sweep one.toml --seeds 1..=7 --threads 1
starts 8 $fdstudy sweep one.toml --seeds 1..=7 --threads 3
starts 12 $fdstudy sweep one.toml --seeds 1..=7 --threads 7
starts 126 $fdstudy sweep one.toml --seeds 1..=64 --threads 64
starts 8 $fdstudy check one.toml --seeds 1 --vary detector.timeout=1..=7 --threads 3
starts 0 taskset -c "$(taskset -cp $$ | sed 's/.*: //; s/[-,].*//')" $fdstudy sweep one.toml --seeds 1..=7
end

# Each of 70 processes has something to do at each of six ticks, and no letter comes. In the last of five windows of the
# other file one of two processes has something to do.
begin "each window has its workers, and no more than there are processes" 0
cat > seventy.toml << 'END'
version = 2
processes = 70
horizon = 6
lookahead = 2
seed = 1
algorithm = "none"

[detector]
period = 100
check = 1
timeout = 100
grow = 1

[link]
min = 100
max = 100
END
starts 21 $fdbench run seventy.toml --workers 7 --window 2
starts 42 $fdbench run seventy.toml --workers 7 --window 1
starts 192 $fdbench run seventy.toml --workers 64 --window 2
starts 3 $fdbench run seventy.toml --workers 1 --window 2
starts 9 $fdbench run one.toml --workers 7 --window 2
starts 21 $fdbench compare seventy.toml --workers 7 --window 2
end

# Two processes, of which each has a beat and a check at each of 250,000 ticks, and the other's beats a thousand ticks
# after they were sent, at the start too: 2 starts, 1,000,000 beats and checks, 498,002 letters, and the line of names.
begin "more than a million entries by the list and by windows" 0
cat > million.toml << 'END'
version = 1
processes = 2
horizon = 250001
lookahead = 1000
seed = 1
limit = 1498004
algorithm = "none"

[detector]
period = 1
check = 1
timeout = 2000
grow = 1

[link]
min = 1000
max = 1000
END
$limit $fdbench list million.toml --print trace > million 2> err
ended $?
[ "$(wc -l < million)" -eq 1498005 ] || is_wrong "$(wc -l < million) lines, not 1498005"
[ "$(tail -n 1 million)" = "250000,2,2,500000,check,0,0," ] || is_wrong "the last row is $(tail -n 1 million)"
wants 0 million $fdbench run million.toml --workers 2 --window 1000 --print trace
sed -i 's/^limit.*/limit = 1498003/' million.toml
wants "3 fdbench: run: Limit" nothing $fdbench run million.toml --workers 2 --window 1000
rm million out
end

# Each of three processes suspects the others at almost every tick, so that each coordinator is given up before its
# proposal comes, and nobody decides.
begin "rounds beyond 5,000 by the list and by windows" 0
cat > rounds.toml << 'END'
version = 1
processes = 3
horizon = 6000
lookahead = 1
seed = 1
algorithm = "es"
proposals = [10, 20, 30]

[detector]
period = 1000000
check = 1
timeout = 1
grow = 1

[link]
min = 1
max = 1
END
$limit $fdbench list rounds.toml --print trace > rounds 2> err
ended $?
for process in 1 2 3; do
    grep -q "^[0-9]*,$process,.*round:5001\>" rounds || is_wrong "process $process did not enter round 5,001"
done
wants 0 rounds $fdbench run rounds.toml --workers 2 --window 1 --print trace
end

# Each letter of one link looks for its outage among 100,000, which lie in no order. By halving that takes a second or two
# in all; to pass over all of them for each letter takes a minute.
begin "100,000 outages of a link with 500,000 letters are no hindrance" 0
{
    sed -e 's/^version = 1/version = 2/' -e 's/^horizon = 10$/horizon = 5000000/' -e 's/^period = 4/period = 10/' \
        -e 's/^check = 3/check = 1000000/' -e 's/^seed/limit = 10000000\nseed/' one.toml
    awk 'BEGIN { for (i = 0; i < 100000; i++) { b = (i * 77777) % 100000 * 50 + 21
        printf "\n[[outage]]\nfrom = 1\nto = 2\nbegin = %d\nuntil = %d\n", b, b + 8 } }'
} > outages.toml
timeout 20 $fdbench list outages.toml > out 2> err
ended $?
grep -q '^run,0,0,0,lost,0$' out || is_wrong "a letter between two outages is lost: $(sed -n 4p out)"
end

# A run of 256 processes over 10,000,000 ticks, with a network that reaches the last of both. The file that `show` prints
# has to have just the outages and links that another program draws.
begin "a network over 256 processes and 10,000,000 ticks is drawn as another program draws it"
sed -e 's/^version = 1/version = 2/' -e 's/^processes = 2/processes = 256/' -e 's/^horizon = 10$/horizon = 10000000/' \
    one.toml > greatest.toml
cat > greatest.network.toml <<'END'
[[bursts]]
from = [255, 256]
to = "all"
gap = { values = [1700000, 2300000, 900000] }
length = { values = [3000, 40000] }

[[cuts]]
between = [[1, 2, 250], [7, 256]]
gap = 1100000
length = 70000

[[pauses]]
processes = [7, 256]
gap = { values = [900000, 1900000] }
length = 50000

[[replays]]
from = [256]
to = [9]
both = true
lasts = 1000000
outages = [[999000, 1000000], [0, 7]]

[[links]]
from = [256]
to = "all"
both = true
min = 2
max = 4
END
endings=("0 greatest.network.toml: 1 seeds, 510 links, * drawn outages: the same")
timeout 60 python3 "$root/bench/network.py" shown greatest.network.toml greatest.toml 1 $fdstudy > err 2>&1
ended $?
end

begin "a network has at most 100,000 values in a list"
values_of() {
    echo '[[bursts]]'
    echo 'from = "all"'
    echo 'to = "all"'
    echo 'gap = 9000000'
    echo "length = { values = [$(yes 5, | head -n "$1" | tr -d '\n')] }"
}
sed 's/^version = 1/version = 2/' one.toml > two.toml
values_of 100000 > values.toml
wants 0 checked $fdstudy check two.toml --network values.toml
values_of 100001 > more.toml
wants "1 two.toml: network: TooManyValues: *length* has more than 100000 values" nothing $fdstudy check two.toml --network more.toml
end

# 65,280 links and some 80,000 outages make a file of more bytes than a scenario's may have.
begin "a file that is shown has at most 8,388,608 bytes"
cat > long.network.toml <<END
[[links]]
from = "all"
to = "all"
min = 1000000
max = 1000000

[[pauses]]
processes = [$(seq -s, 120)]
gap = 3000000
length = 1000000
END
wants "1 greatest.toml: run 1 of point 1*: TooLong: more than 8388608 bytes" nothing \
    $fdstudy show greatest.toml --network long.network.toml --seeds 1 --point 1
end

sum_up
