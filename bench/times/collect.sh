# A collection of roots whose store has so many paths, of ten files each, a hundredth of them of 40,000 bytes and the others of 32. Each
# path names the second one after it in one of its files. The generations are of the first path and of the second, which is the current
# one, so that half of the paths go. With 10,000 paths it may take 5 seconds and 200 MB, and a path of the largest root no more than three
# times as long as one of the smallest.
#
# opens  the most calls that open one leaf of the store to read it
# shellcheck shell=bash disable=SC2034,SC2154
default_sizes=(1000 4000 10000)
counted_columns=(calls opens)
times=1
things=paths
store=$root/tree/nix/store
profiles=$root/tree/nix/var/nix/profiles
first_row='' last_row=''

# Makes the root, and keeps a copy of it.
make_size() {
    rm -rf "$root" "$work/kept"
    mkdir -p "$profiles"
    seq -f "$store/p-%05.0f" "$1" | xargs mkdir -p
    awk -v store="$store" -v last="$1" 'BEGIN {
        many = "some bytes of a program "
        while (length(many) < 40000)
            many = many many
        for (number = 1; number <= last; number++) {
            folder = sprintf("%s/p-%05d", store, number)
            for (part = 0; part < 10; part++) {
                file = folder "/part-" part
                printf "F 0644 0 0\npart %d of path %d, some bytes\n", part, number >file
                if (part == 3 && number + 2 <= last)
                    printf "exec /nix/store/p-%05d/bin/next\n", number + 2 >file
                if (part == 7 && number % 10 == 0)
                    print many >file
                close(file)
            }
        }
        for (number = 1; number <= 2; number++) {
            file = sprintf("%s/p-%05d/nixos-version", store, number)
            print "F 0644 0 0\n24.05" >file
        }
    }'
    printf 'L /nix/store/p-00001\n' >"$profiles/system-1-link"
    printf 'L /nix/store/p-00002\n' >"$profiles/system-2-link"
    printf 'L system-2-link\n' >"$profiles/system"
    cp -r "$root" "$work/kept"
}

fresh() {
    rm -rf "$root"
    cp -r "$work/kept" "$root"
}

# Collects, by way of the words given, and sets `status`.
act() {
    "$@" "$program" "$root" collect 1 >"$work/stdout" 2>"$work/stderr"
    status=$?
}

after() {
    [ "$status" = 0 ] || wrong "$1" "status $status, $(cat "$work/stderr")"
    [ "$(grep -c '^drop store ' "$work/stdout")" = $(($1 / 2)) ] || wrong "$1" "the report has another number of paths"
    [ "$(find "$store" -name 'part-*' | wc -l)" = $((($1 - $1 / 2) * 10)) ] || wrong "$1" "another number of files is left"
    [ ! -e "$profiles/system-1-link" ] || wrong "$1" "the link of the first generation is left"
    last_row="$1 $micros"
    [ -n "$first_row" ] || first_row=$last_row
    [ "$1" -gt 10000 ] || [ "$micros" -le 5000000 ] || wrong "$1" "it takes $micros microseconds"
}

# The file of a version is read for the boot menu too.
judge_counts() { [ "${counted[opens]}" -le 2 ] || wrong "$1" "a leaf was opened ${counted[opens]} times"; }

after_row() { [ "$peak" = - ] || [ "$peak" -le 200000 ] || wrong "$1" "it takes $peak KiB"; }

finish() {
    awk -v first="$first_row" -v last="$last_row" 'BEGIN {
        split(first, one)
        split(last, other)
        exit !(other[2] / other[1] <= 3 * one[2] / one[1])
    }' || wrong "${last_row% *}" "it takes more than three times as long for each"
}

cat >"$work/count.awk" <<'AWK'
{ sub(/^[0-9]+ +/, "") }
!/^[a-z_0-9]+\(/ { next }
{ calls++ }
/^open/ && /tree\/nix\/store\// && !/O_DIRECTORY/ && !/O_PATH/ {
    match($0, /"[^"]*"/)
    name = $0
    sub(/^[^<]*</, "", name)
    sub(/>.*/, "", name)
    opened = name " " substr($0, RSTART, RLENGTH)
    if (++times[opened] > most)
        most = times[opened]
}
END { print calls + 0, most + 0 }
AWK
