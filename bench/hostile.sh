#!/bin/bash
# Runs the built program where the machine refuses memory, threads and writes, and feeds it bad input.
#
#     bench/hostile.sh [--few] [--built]
#
# Each run has to end by itself, with a status of the program's table and a line of such a fault, and where the
# status is 0 with the same bytes as with ample means. It refuses each single request for memory, and each start of a
# thread, in turn (bench/refuse.c, for which it wants a C compiler); then, too, no memory may be held when the program
# ends. As root it also tries a limit on threads, as nobody, and a full disk. With --few, as the gate runs it, each kind
# of refusal has a few runs, half a minute in all. Prints of each kind how many runs it had and how they ended, and last
# how many kinds passed; status 1 where one did not. Without --built the program is proved and built first, where that is
# needed.
root=$(CDPATH='' cd -- "$(dirname -- "$0")/.." && pwd) || exit 1
folder=$(mktemp -d) || exit 1
trap 'umount "$folder/small" 2> /dev/null; rm -r "$folder"' EXIT
chmod 755 "$folder"
# shellcheck source=bench/refusals.sh
. "$root/bench/refusals.sh"
bring fdbench
make_refuse
cp "$root/examples/lossy_coordinator.toml" "$root/bench/sixty_four.toml" "$folder"
fdbench="$folder/fdbench"
five="$folder/lossy_coordinator.toml"
many="$folder/sixty_four.toml"

for file in "$five" "$many"; do
    "$fdbench" list "$file" --print both > "$file.listed" || give_up "list $file"
done
echo ok > "$folder/ok"
echo same > "$folder/same"

# Splits the order $1 into words, and says how it may end where it is refused memory. What starts threads may be refused
# one because memory was refused.
split() {
    read -r -a words <<< "$1"
    memory=("2 fdbench: words: Memory" "1 fdbench: scenario: Memory")
    [ "${words[0]}" = check ] || memory+=("3 fdbench: run: Memory")
    case ${words[0]} in run | compare) memory+=("3 fdbench: run: Spawn") ;; esac
}

# 127 is the system's loader, which found no room for the C library before the program began
for order in check "list --print both" "run --workers 3 --window 2 --print both" "compare --workers 3 --window 2"; do
    split "$order"
    begin "memory refused to $order, from 2.5 MiB on (ulimit -v)" 0 "${memory[@]}" "127 *"
    for ((room = 2500; room <= 60000; room += room / $(step 16 1))); do
        for file in "$five" "$many"; do
            (ulimit -v "$room"; exec $limit "$fdbench" "${words[0]}" "$file" "${words[@]:1}") \
                > "$folder/out" 2> "$folder/err"
            status=$?
            case ${words[0]} in
                check) ended $status "$folder/ok" ;;
                compare) ended $status "$folder/same" ;;
                *) ended $status "$file.listed" ;;
            esac
        done
    done
    end
done

# The words are read first, then the file, and then the run begins: no refusal of a request may be told of an earlier one
# of these than that of a request before. Appends what this run told of to $stages.
in_order() {
    local stage
    case $(< "$folder/err") in
        *': words: '*) stage=1 ;;
        *': scenario: '*) stage=2 ;;
        *': run: '*) stage=3 ;;
        *) return ;;
    esac
    if [ "$stage" -lt "${stages: -1}" ]; then is_wrong "told of what was done by then: $1"; fi
    if [ "$stage" -gt "${stages: -1}" ]; then stages+=$stage; fi
}

# Runs the order $1 over the file $2, which prints the file $3 where it is done, with one request after the other
# refused: of those that the variable $4 names, in steps of $5. Words, file and run each have to be told of; where the
# steps are longer than 30 requests, which may pass over the words and the file, the run has to be.
refuse_in_turn() {
    split "$1"
    stages=0
    for ((request = 1; ; request += $5)); do
        rm -f "$folder/refused"
        $limit env "$4=$request" "REFUSED=$folder/refused" "LEFT=$folder/left" "LD_PRELOAD=$folder/refuse.so" \
            "$fdbench" "${words[0]}" "$2" "${words[@]:1}" > "$folder/out" 2> "$folder/err"
        status=$?
        # beyond the last request
        [ -e "$folder/refused" ] || break
        ended "$status" "$3"
        held "$4 $request of $1, $2"
        in_order "$4 $request of $1, $2"
    done
    if [ "$4" = REFUSE ]; then
        case $stages in
            0123) ;;
            *3) [ "$5" -gt 30 ] || is_wrong "not each of words, file and run is told of: $1, $2" ;;
            *) is_wrong "no request of the run is told of: $1, $2" ;;
        esac
    fi
}
for order in "list --print both" "run --workers 2 --window 2 --print both"; do
    split "$order"
    begin "each request for memory of $order refused in turn" 0 "${memory[@]}"
    for example in one_crash exchange lossy_coordinator; do
        file="$root/examples/$example.toml"
        "$fdbench" list "$file" --print both > "$folder/listed" || give_up "list $file"
        refuse_in_turn "$order" "$file" "$folder/listed" REFUSE "$(step 1 11)"
    done
    end
done

# these windows are small, so that all threads are workers, of which each that can't be had ends the run
begin "each start of a worker refused in turn, 5 processes" "3 fdbench: run: Spawn"
for order in "run --workers 3 --window 2 --print both" "compare --workers 2 --window 1"; do
    refuse_in_turn "$order" "$five" "$five.listed" REFUSE_THREAD "$(step 1 13)"
done
end

crowd="$root/bench/crowd_64.toml"
"$fdbench" list "$crowd" --print both > "$folder/listed" || give_up "list $crowd"
order="run --workers 4 --window 2 --print both"
begin "each start of a worker refused in turn, 64 processes, 4 workers" "3 fdbench: run: Spawn"
refuse_in_turn "$order" "$crowd" "$folder/listed" REFUSE_THREAD "$(step 1 4)"
end
split "$order"
begin "one request for memory in $(step 61 337) refused, 64 processes, 4 workers" 0 "${memory[@]}"
refuse_in_turn "$order" "$crowd" "$folder/listed" REFUSE "$(step 61 337)"
end

if [ "$(id -u)" -ne 0 ]; then
    echo "not tried, as that wants root: threads refused (ulimit -u), and a file that fills up"
else
    begin "threads refused (ulimit -u, 64 workers)" 0 "3 fdbench: run: Spawn"
    for threads in 1 3 32 65 $(step "2 8 16 63 64 80" ""); do
        # shellcheck disable=SC2016 (the inner shell's own words)
        $limit setpriv --reuid=65534 --regid=65534 --clear-groups \
            bash -c 'ulimit -u "$0"; exec "$@"' "$threads" "$fdbench" run "$many" --workers 64 --window 4 --print both \
            > "$folder/out" 2> "$folder/err"
        ended $? "$many.listed"
    done
    end
    mkdir "$folder/small"
    if mount -t tmpfs -o size=64k tmpfs "$folder/small" 2> /dev/null; then
        begin "a file that fills up" "4 fdbench: run: Write"
        $limit "$fdbench" list "$many" --print both > "$folder/small/out" 2> "$folder/err"
        ended $?
        $limit "$fdbench" run "$many" --workers 2 --window 4 --print both > "$folder/small/out" 2> "$folder/err"
        ended $?
        end
    fi
fi

begin "writes refused" "4 fdbench: run: Write"
mkfifo "$folder/pipe"
for order in "list" "run --workers 2 --window 2"; do
    split "$order"
    of_five=("${words[0]}" "$five" "${words[@]:1}" --print both)
    of_many=("${words[0]}" "$many" "${words[@]:1}" --print both)
    $limit "$fdbench" "${of_five[@]}" > /dev/full 2> "$folder/err"
    ended $?
    $limit "$fdbench" "${of_five[@]}" >&- 2> "$folder/err"
    ended $?
    head -c 5 "$folder/pipe" > /dev/null &
    $limit "$fdbench" "${of_many[@]}" > "$folder/pipe" 2> "$folder/err"
    ended $?
    wait
done
end

begin "a slow reader" 0
$limit "$fdbench" list "$five" --print both 2> "$folder/err" | (sleep 1; cat) > "$folder/out"
ended "${PIPESTATUS[0]}" "$five.listed"
$limit "$fdbench" run "$five" --workers 2 --window 2 --print both 2> "$folder/err" | (sleep 1; cat) > "$folder/out"
ended "${PIPESTATUS[0]}" "$five.listed"
end

begin "standard input closed" "1 fdbench: input: unreadable"
$limit "$fdbench" check - <&- > "$folder/out" 2> "$folder/err"
ended $?
end
begin "standard input endless" "1 fdbench: input: too long"
$limit "$fdbench" check - < /dev/zero > "$folder/out" 2> "$folder/err"
ended $?
end
begin "standard input of one byte at a time" 0
dd if="$five" bs=1 status=none | $limit "$fdbench" list - --print both > "$folder/out" 2> "$folder/err"
ended "${PIPESTATUS[1]}" "$five.listed"
end

# each file has as many bytes as a scenario may have
bytes=8388608
repeat() {
    yes "$1" | tr -d "${2:-}" | head -c $bytes
}
for content in random brackets rows key comment tables; do
    fault=NotToml
    case $content in
        random) head -c $bytes /dev/urandom ;;
        brackets) repeat '[' '\n' ;;
        rows) repeat 'a=1' ;;
        key) repeat 'a' '\n' | head -c $((bytes - 3)); echo '=1' ;;
        comment) repeat '#' '\n' ;;
        tables) repeat '[[crash]]' ;;
    esac > "$folder/hostile"
    case $content in
        key) fault=UnknownKey ;;
        comment) fault=MissingKey ;;
    esac
    seconds=$(step 1 10)
    begin "a file of 8 MiB, $content, in so many seconds: $seconds" "1 fdbench: scenario: $fault"
    timeout "$seconds" "$fdbench" check "$folder/hostile" > "$folder/out" 2> "$folder/err"
    ended $?
    end
done

sum_up
