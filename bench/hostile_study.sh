#!/bin/bash
# Runs the built fdstudy where the machine refuses memory, threads and writes, and feeds it bad input, as bench/hostile.sh
# does with fdbench, and with the same words. Each run has to end by itself, with a status of the program's table and the
# line of just that fault, and where the status is 0 with the same bytes as with ample means. Each single request for
# memory, and each start of a thread, is refused in turn.
root=$(CDPATH='' cd -- "$(dirname -- "$0")/.." && pwd) || exit 1
folder=$(mktemp -d) || exit 1
trap 'rm -r "$folder"' EXIT
# shellcheck source=bench/refusals.sh
. "$root/bench/refusals.sh"
bring fdstudy
make_refuse
cp "$root/examples/one_crash.toml" "$folder"
fdstudy="$folder/fdstudy"
file="$folder/one_crash.toml"
grid="--seeds 1..=2 --vary detector.timeout=5,8"
orders=("check" "letters" "draw --as suspicions" "draw --as letters" "show $grid --point 2" "sweep $grid --threads 1"
    "sweep $grid --threads 2" "check $grid --threads 2")
memory=("2 fdstudy: words: Memory" "3 fdstudy: run: Memory")

for place in "${!orders[@]}"; do
    read -r -a words <<< "${orders[$place]}"
    "$fdstudy" "${words[0]}" "$file" "${words[@]:1}" > "$folder/ample_$place" \
        || give_up "${orders[$place]}"
done

# 127 is the system's loader, which found no room for the C library before the program began
begin "memory refused, from 2.5 MiB on (ulimit -v)" 0 "${memory[@]}" "127 *"
for ((room = 2500; room <= 60000; room += room / $(step 16 1))); do
    for place in "${!orders[@]}"; do
        read -r -a words <<< "${orders[$place]}"
        (ulimit -v "$room"; exec $limit "$fdstudy" "${words[0]}" "$file" "${words[@]:1}") > "$folder/out" 2> "$folder/err"
        ended $? "$folder/ample_$place"
    done
done
end

# Runs each order with one request after the other refused, of those that the variable $1 names, in steps of $2.
refuse_in_turn() {
    for place in "${!orders[@]}"; do
        read -r -a words <<< "${orders[$place]}"
        for ((request = 1; ; request += $2)); do
            rm -f "$folder/refused"
            $limit env "$1=$request" "REFUSED=$folder/refused" "LEFT=$folder/left" "LD_PRELOAD=$folder/refuse.so" \
                "$fdstudy" "${words[0]}" "$file" "${words[@]:1}" > "$folder/out" 2> "$folder/err"
            status=$?
            # beyond the last request
            [ -e "$folder/refused" ] || break
            ended "$status" "$folder/ample_$place"
            held "$1 $request of ${orders[$place]}"
        done
    done
    end
}
begin "each request for memory refused in turn" 0 "${memory[@]}"
refuse_in_turn REFUSE "$(step 1 11)"
# a thread that can't be had costs time alone
begin "each start of a thread refused in turn" 0
refuse_in_turn REFUSE_THREAD 1

begin "writes refused" "4 fdstudy: run: Write"
for order in "${orders[@]}"; do
    read -r -a words <<< "$order"
    $limit "$fdstudy" "${words[0]}" "$file" "${words[@]:1}" > /dev/full 2> "$folder/err"
    ended $?
    $limit "$fdstudy" "${words[0]}" "$file" "${words[@]:1}" >&- 2> "$folder/err"
    ended $?
done
end

begin "standard input closed, endless" "1 -: unreadable" "1 -: more than 8388608 bytes"
for order in "${orders[@]}"; do
    read -r -a words <<< "$order"
    $limit "$fdstudy" "${words[0]}" - "${words[@]:1}" <&- > "$folder/out" 2> "$folder/err"
    ended $?
    $limit "$fdstudy" "${words[0]}" - "${words[@]:1}" < /dev/zero > "$folder/out" 2> "$folder/err"
    ended $?
done
end

# each file has as many bytes as a scenario may have
bytes=8388608
begin "files of 8 MiB, each checked in ten seconds" "1 $folder/hostile: NotToml: *" "1 $folder/hostile: MissingKey*"
for line in '[' 'a=1' '[[crash]]' '#' 'crash = 1'; do
    yes "$line" | head -c $bytes > "$folder/hostile"
    timeout 10 "$fdstudy" check "$folder/hostile" > "$folder/out" 2> "$folder/err"
    ended $?
done
end

sum_up
