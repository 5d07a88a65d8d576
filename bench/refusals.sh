# What bench/edges.sh, hostile.sh and hostile_study.sh share: where the programs come from, and how runs are counted that
# have to end well or as the program's table says. It is read, not run; $folder is where "out" and "err" are.
#
# Words of each script: --built takes the programs as they stand in crates/*/out, where rt ci and tools/build leave them;
# else they are proved and built first, where that is needed. --few tries each kind of fault a few times alone.
few='' built=''
for word in "$@"; do
    case $word in
        --few) few=yes ;;
        --built) built=yes ;;
        *)
            echo "${0##*/}: $word: it takes --few and --built alone" >&2
            exit 2
            ;;
    esac
done

# a run that hangs is stopped after so many seconds
limit="timeout --kill-after=1 60"
wrong=0 passed=0 failed=0

# Says why the script can't go on, as its one failure.
give_up() {
    echo "${0##*/}: $1"
    echo "$passed passed, $((failed + 1)) failed"
    exit 1
}

# Brings the program $1 into the folder.
bring() {
    [ -n "$built" ] || "$root/$1" --help > /dev/null || give_up "$1 could not be built"
    cp "$root/crates/$1/out/$1" "$folder" 2> /dev/null || give_up "there is no crates/$1/out/$1: is it proved and built?"
    chmod 755 "$folder/$1"
}

# Makes of bench/refuse.c what is loaded before a program.
make_refuse() {
    command -v cc > /dev/null || give_up "there is no C compiler (cc), without which nothing is injected"
    cc -shared -fPIC -O1 -o "$folder/refuse.so" "$root/bench/refuse.c" || give_up "cc did not compile bench/refuse.c"
}

# The first number, or with --few the second: how far one try is from the next.
step() {
    if [ -n "$few" ]; then echo "$2"; else echo "$1"; fi
}

# Begins a kind of refusal: its name, and how its runs may end. An ending is a status and, after a blank, what standard
# error tells then, in which * is any text; a status alone is one with which nothing is told.
begin() {
    kind=$1 runs=0 wrong_before=$wrong
    shift
    endings=("$@")
    declare -gA counts=()
}

# Says what is wrong with a run of this kind.
is_wrong() {
    echo "wrong: $kind: ${1:0:200}"
    wrong=$((wrong + 1))
}

# Counts a run that ended with the status $1. With status 0, "$folder/out" has to be the file $2, where one is named.
ended() {
    local ending told
    told=$(< "$folder/err")
    told=$1${told:+ $told}
    runs=$((runs + 1))
    if [ "$1" -eq 0 ] && [ -n "${2:-}" ] && ! cmp -s "$folder/out" "$2"; then
        is_wrong "other bytes with status 0"
    fi
    for ending in "${endings[@]}"; do
        # shellcheck disable=SC2053 (an ending is a pattern)
        if [[ $told == $ending ]]; then
            counts[$ending]=$((${counts[$ending]:-0} + 1))
            return
        fi
    done
    is_wrong "$told"
}

# Ends a kind of refusal, which has passed where no run of it was wrong and it had one.
end() {
    local ending
    echo "$kind: $runs runs"
    for ending in "${!counts[@]}"; do
        printf '%8d %s\n' "${counts[$ending]}" "$ending"
    done | sort -k 2
    if [ "$wrong" -eq "$wrong_before" ] && [ "$runs" -gt 0 ]; then passed=$((passed + 1)); else failed=$((failed + 1)); fi
}

# Whether memory is held at the end of a run with bench/refuse.c: the run is named by $1.
held() {
    if [ -e "$folder/left" ]; then
        is_wrong "memory is held at the end, $1"
        rm "$folder/left"
    fi
}

# Says how many kinds passed, as the script ends.
sum_up() {
    echo "$passed passed, $failed failed"
    [ "$failed" -eq 0 ]
}
