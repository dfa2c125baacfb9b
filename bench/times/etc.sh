# A switch of roots whose two systems want so many entries below /etc, and one unit. A thirtieth of the entries are copies with
# other bytes in the second system, a thirtieth are only there, and a thirtieth aren't there; the others are links and stay. An
# entry of the largest root may not take four times as long as one of the smallest.
#
# planned  milliseconds of the quickest of three dry runs
# opens    the most calls that open one leaf of the new system, or one below /etc, to read it
# puts     leaves below /etc that are put or removed
# most     the most often that one of them is
# shellcheck shell=bash disable=SC2034,SC2154
default_sizes=(1000 16000 131072)
further_columns=(planned)
counted_columns=(calls opens puts most)
times=1
things=entries
first_row='' last_row=''

# Makes the root, and keeps a copy of all but its store.
make_size() {
    make_whole "$root" 1 "$1" 1
    keep_root
    entries new-sys "$1" 10 >"$work/entries"
}

fresh() { restore_kept; }

# by COMMAND WORDS..: runs a command with the new system, by way of the words given, and sets `status`.
by() {
    local command=$1
    shift
    "$@" "$program" "$root" "$command" nix/store/new-sys >"$work/stdout" 2>"$work/stderr"
    status=$?
}

act() { by switch "$@"; }

# told ENTRIES: judges the last run by its report.
told() {
    [ "$status" = 0 ] || wrong "$1" "status $status, $(cat "$work/stderr")"
    [ "$(grep -c '^remove etc/app/' "$work/stdout")" = $((($1 + 19) / 30)) ] || wrong "$1" "the report removes another number"
    ! grep -q '^skip ' "$work/stdout" || wrong "$1" "the report skips an entry"
}

before() {
    quickest 3 by dry-activate
    told "$1"
    further=("$(thousandths "$micros")")
}

after() {
    told "$1"
    entries_left "$root" | cmp -s - "$work/entries" || wrong "$1" "something else stands below /etc"
    [ ! -e "$root/tree/nix/var/nixswitch.stage" ] || wrong "$1" "the stage is left"
    last_row="$1 $micros"
    [ -n "$first_row" ] || first_row=$last_row
}

judge_counts() {
    # Copies, new links and removals: the numbers that leave 0, 20 and 10 by thirty.
    local changed=$((($1 + 29) / 30 + ($1 + 9) / 30 + ($1 + 19) / 30))
    [ "${counted[opens]}" = 1 ] || wrong "$1" "a leaf was opened ${counted[opens]} times"
    [ "${counted[most]}" = 1 ] || wrong "$1" "a leaf was put ${counted[most]} times"
    [ "${counted[puts]}" = $changed ] || wrong "$1" "${counted[puts]} leaves were put or removed, and not $changed"
}

# Counts the calls, and below /etc and in the new system the most opens and puts of one leaf.
cat >"$work/count.awk" <<'AWK'
{ sub(/^[0-9]+ +/, "") }
!/^[a-z_0-9]+\(/ { next }
{ calls++ }
/ = -1 / { next }
/^open/ && /O_RDONLY/ && !/O_DIRECTORY/ && match($0, /= [0-9]+<[^>]*>/) {
    file = substr($0, RSTART, RLENGTH - 1)
    sub(/^[^<]*</, "", file)
    if (index(file, root "tree/etc/app/") == 1 || index(file, root "tree/nix/store/new-sys/etc/app/") == 1)
        if (++opened[file] > opens)
            opens = opened[file]
}
/^(rename|unlink)/ {
    file = $0
    sub(/"[^"]*$/, "", file)
    sub(/.*"/, "", file)
    if (index(file, root "tree/etc/app/") != 1)
        next
    puts++
    if (++put[file] > most)
        most = put[file]
}
END { print calls + 0, opens + 0, puts + 0, most + 0 }
AWK

finish() {
    if ! awk -v a="$first_row" -v b="$last_row" 'BEGIN {
        split(a, from, " ")
        split(b, to, " ")
        exit to[1] > from[1] && to[2] / to[1] >= 4 * from[2] / from[1]
    }'; then
        wrong "${last_row% *}" "an entry took four times as long as one of the smallest root"
    fi
}
