#!/usr/bin/env bash
# Times the program on long scripts, and prints of each how long the shortest of five runs took: large work; the longest
# script that it takes, 1,048,576 bytes with 4,096 commands of sessions of all levels, on 8 workers with 3 replicas a key,
# and scripts with a half and a quarter of its commands, whose reports are checked too; as many commands on 128 keys with
# 8 replicas; as many of eventual sessions alone, on 1 and 8 workers, and of causal ones; 2,048 puts of words of 60 bytes
# into one set with a get after each, and the same into one map (130 MB of report each); as many puts of a counter and
# inserts and removes of a set with removal, each with a get; and 4,096 puts by 16 sessions to one key and to 128 keys,
# on 1, 2, 4 and 8 workers. With `taskset -c 0,1` before it all runs on two cores.
set -u
top=$(cd "$(dirname "$(readlink -f "$0")")/.." && pwd) || exit 1
program=$top/crates/anna_run/out/anna_run
ulimit -S -s 1024 # as ./anna has it
folder=$(mktemp -d) || exit 1
trap 'rm -rf "$folder"' EXIT

# A script with so many commands in 16 sessions on 128 keys of all kinds, each on so many of so many workers, filled up
# to so many bytes by comments. The sessions have these levels in turn.
make_script() {
    awk -v commands="$1" -v workers="$2" -v factor="$3" -v bytes="$4" -v all="$5" 'BEGIN {
        split("max or set map last versions", kinds, " ")
        many = split(all, levels, " ")
        text = "anna 1\nworkers " workers "\nfactor " factor "\n"
        for (k = 0; k < 128; k++)
            text = text "key k" k " " kinds[k % 6 + 1] "\n"
        each = commands / 16
        for (s = 0; s < 16; s++) {
            level = levels[s % many + 1]
            text = text "session s" s " " level "\n"
            for (c = 0; c < each; c++) {
                k = (s * each + c) % 128
                if (level == "committed" && c % 16 == 0)
                    text = text "begin\n"
                else if (level == "committed" && c % 16 == 15)
                    text = text "commit\n"
                else if (c % 4 == 3)
                    text = text "get k" k "\n"
                else if (k % 6 == 0)
                    text = text "put k" k " " c "\n"
                else if (k % 6 == 1)
                    text = text "put k" k " on\n"
                else if (k % 6 == 3)
                    text = text "put k" k " f" c % 10 " " c "\n"
                else
                    text = text "put k" k " w" c % 50 "\n"
            }
        }
        text = text "end\n"
        left = bytes - length(text)
        line = "#"
        while (length(line) < 1023)
            line = line "."
        for (; left >= 2048; left -= 1024)
            printf "%s\n", line
        if (left > 0) {
            line = "#"
            while (length(line) < left - 1)
                line = line "."
            printf "%s\n", line
        }
        printf "%s", text
    }'
}

# 2,048 puts of different words of 60 bytes to one key of this kind, with a get after each; a map's field has a number.
make_words() {
    awk -v kind="$1" 'BEGIN {
        printf "anna 1\nworkers 8\nfactor 3\nkey k %s\nsession s eventual\n", kind
        for (c = 0; c < 2048; c++)
            printf "put k w%059d%s\nget k\n", c, kind == "map" ? " 7" : ""
        print "end"
    }'
}

# 2,048 puts of one counter with a get after each, and 2,048 inserts and removes in turn of one set with removal. Each
# third remove is of a word that is not there.
make_dots() {
    awk -v kind="$1" 'BEGIN {
        printf "anna 2\nworkers 8\nfactor 3\nkey k %s\nsession s eventual\n", kind
        for (c = 0; c < 2048; c++)
            if (kind == "counter")
                printf "put k %s %d\nget k\n", c % 3 ? "add" : "sub", c
            else
                printf "put k %s w%059d\nget k\n", c % 3 ? "insert" : "remove", c % 1365
        print "end"
    }'
}

# 4,096 puts by 16 sessions to so many keys, in turn, each on every one of so many workers.
make_puts() {
    awk -v workers="$1" -v keys="$2" 'BEGIN {
        printf "anna 1\nworkers %d\nfactor %d\n", workers, workers
        for (k = 0; k < keys; k++)
            print "key k" k " max"
        for (s = 0; s < 16; s++) {
            print "session s" s " eventual"
            for (c = 0; c < 256; c++)
                print "put k" (s * 256 + c) % keys " " s * 256 + c
        }
        print "end"
    }'
}

# The milliseconds that the shortest of five runs takes, with these words and the script as input.
least() {
    local begun took turn best=
    for ((turn = 0; turn < 5; turn++)); do
        rm -f "$folder/report" # emptying a long one takes time of its own
        begun=$(date +%s%N)
        "$program" "$@" <"$folder/script" >"$folder/report" || exit 1
        took=$((($(date +%s%N) - begun) / 100000))
        [ -n "$best" ] && [ "$best" -le "$took" ] || best=$took
    done
    echo "$((best / 10)).$((best % 10)) ms"
}

# Runs the script, and says how long that takes.
time_run() {
    local took
    took=$(least run) || exit 1
    echo "$1: $took"
}

# Checks the report of the script, and says how long that takes.
time_check() {
    local took
    cat "$folder/report" >>"$folder/script"
    took=$(least check) || exit 1
    echo "$1, checked: $took"
}

"$top/anna" run <"$top/examples/first.anna" >/dev/null || exit 1 # builds it where that is due, and is not timed
all="eventual committed causal"
: >"$folder/script"
took=$(least big 7) || exit 1
echo "big 7: $took"
for commands in 1024 2048 4096; do
    make_script "$commands" 8 3 $((commands * 256)) "$all" >"$folder/script"
    time_run "$commands commands of all levels on 8 workers, 3 replicas a key"
    time_check "$commands commands of all levels"
done
make_script 4096 8 8 0 "$all" >"$folder/script"
time_run "4096 commands of all levels on 8 workers, 8 replicas a key"
make_script 4096 1 1 0 eventual >"$folder/script"
time_run "4096 commands of eventual sessions on 1 worker"
make_script 4096 8 3 0 eventual >"$folder/script"
time_run "4096 commands of eventual sessions on 8 workers, 3 replicas a key"
for commands in 1024 2048 4096; do
    make_script "$commands" 8 3 0 causal >"$folder/script"
    time_run "$commands commands of causal sessions on 8 workers, 3 replicas a key"
done
for kind in set map; do
    make_words "$kind" >"$folder/script"
    time_run "2048 puts of words into one $kind with a get after each"
done
for kind in counter orset; do
    make_dots "$kind" >"$folder/script"
    time_run "2048 puts of one $kind with a get after each"
done
for keys in 1 128; do
    for workers in 1 2 4 8; do
        make_puts "$workers" "$keys" >"$folder/script"
        time_run "4096 puts by 16 sessions, keys: $keys, workers: $workers, each with all keys"
    done
done
