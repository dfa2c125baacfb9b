# A dry run of roots with as much as there may be: two systems of 16,384 units, all active, of which one in ten changes; 131,072
# entries below the etc of the second; and tables of 65,536 rows, which a specification of one group and one user leaves as many.
# It may take no more than 20 seconds and 2 GB. With one unit, one entry or one row more, and with one that a merge adds, the dry
# run is refused by that number.
# shellcheck shell=bash disable=SC2034,SC2154
default_sizes=(16384,131072,65536)
times=1
things='units, entries and rows'

# make_rows ROWS: tables of so many rows, and a specification of an account that they have.
make_rows() {
    local etc=$root/tree/etc
    { printf 'F 0644 0 0\n' && awk -v last="$1" 'BEGIN { for (number = 1; number <= last; number++) print "g" number ":x:" number ":" }'; } >"$etc/group"
    { printf 'F 0644 0 0\n' && awk -v last="$1" 'BEGIN { for (number = 1; number <= last; number++) print "u" number ":x:" number ":1::/:/bin/sh" }'; } >"$etc/passwd"
    { printf 'F 0644 0 0\n' && awk -v last="$1" 'BEGIN { for (number = 1; number <= last; number++) print "u" number ":!:1::::::" }'; } >"$etc/shadow"
    make_spec g1 u1
}

# make_spec GROUP USER: a specification of this group and this user.
make_spec() {
    printf 'F 0644 0 0\n{"mutableUsers":true,"groups":[{"name":"%s","gid":1}],"users":[{"name":"%s","uid":1,"group":"%s","isSystemUser":true}]}\n' \
        "$1" "$2" "$1" >"$root/tree/nix/store/new-sys/users-groups.json"
}

make_size() {
    IFS=, read -r units entries users <<<"$1"
    make_machine "$root" "$units"
    make_entries "$root" new-sys $((entries - units)) 30
    make_rows "$users"
}

act() {
    "$@" "$program" "$root" dry-activate nix/store/new-sys >"$work/stdout" 2>"$work/stderr"
    status=$?
}

after() {
    [ "$status" = 0 ] || wrong "$1" "status $status, $(cat "$work/stderr")"
    [ "$(grep -c '^start ' "$work/stdout")" = "$(wc -l <"$work/started")" ] || wrong "$1" "another number of starts"
    [ "$micros" -le 20000000 ] || wrong "$1" "more than 20 seconds"
}

cat >>"$work/count.awk" <<'AWK'
END { print calls + 0 }
AWK

weight() { echo "${1%%,*}"; }

after_row() { [ "$peak" = - ] || [ "$peak" -le 2000000 ] || wrong "$1" "more than 2 GB"; }

# refused TEXT: the dry run is refused by this text. Prints how long that takes.
refused() {
    quickest 1 act
    if [ "$status" != 2 ] || [ "$(cat "$work/stderr")" != "refused: $1" ] || [ -s "$work/stdout" ]; then
        wrong "one more" "status $status, and $(head -n 1 "$work/stderr"), and not $1"
    fi
    printf '%-40s %12s ms\n' "$1" "$(thousandths "$micros")"
}

finish() {
    local new=$root/tree/nix/store/new-sys table
    printf 'F 0644 0 0\n' >"$new/etc/systemd/system/more.service"
    refused "too many: units $((units + 1))"
    mv "$new/etc/systemd/system/more.service" "$new/etc/more"
    refused "too many: entries $((entries + 1))"
    rm "$new/etc/more"
    for table in group passwd shadow; do
        cp "$root/tree/etc/$table" "$work/table"
        echo 'no row' >>"$root/tree/etc/$table"
        refused "too many: rows $((users + 1))"
        cp "$work/table" "$root/tree/etc/$table"
    done
    make_spec more u1
    refused "too many: rows $((users + 1))"
    make_spec g1 more
    refused "too many: rows $((users + 1))"
    printf 'F 0644 0 0\n' >"$root/tree/nix/store/old-sys/etc/systemd/system/more.service"
    make_spec g1 u1
    refused "too many: units $((units + 1))"
}
