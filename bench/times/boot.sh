# A boot of roots with the boot menu of so many generations.
#
# first      milliseconds of a boot of the root without its menu, which makes all entries
# changes    calls that make, move or remove something below the root, open a file there for writing or write to it
# its own    all system calls without the loader's: from the first on the root
# leaf read  the most calls that read one leaf, without the one by which a listing looks at it
# leaf put   the most calls that look at the place of one leaf and put it, without those on the folders to it
# Of changes there may be 25, of calls for a leaf that is read 4, and for one that is put 10.
# shellcheck shell=bash disable=SC2034,SC2154
default_sizes=(10 1000 10000)
further_columns=(first)
counted_columns=(changes calls 'its own' 'leaf read' 'leaf put')
things=generations
profiles=$root/tree/nix/var/nix/profiles
menu=$root/tree/boot/loader

# restore GENERATIONS: takes back what a boot does to a root with so many.
restore() {
    rm -f "$profiles/system-$(($1 + 1))-link" "$menu/entries/nixos-generation-$(($1 + 1)).conf"
    printf 'L system-%d-link\n' "$1" >"$profiles/system"
    printf 'F 0644 0 0\ndefault nixos-generation-%d.conf\n' "$1" >"$menu/loader.conf"
}

# Makes a root with a system to boot and this many generations of others, with their boot menu.
make_size() {
    rm -rf "$root"
    mkdir -p "$profiles" "$menu/entries" "$root/tree/nix/store/a-sys"
    printf 'F 0644 0 0\n24.05\n' >"$root/tree/nix/store/a-sys/nixos-version"
    awk -v folder="$profiles" -v entries="$menu/entries" -v last="$1" 'BEGIN {
        for (number = 1; number <= last; number++) {
            system_path = "/nix/store/s-" number
            link = folder "/system-" number "-link"
            printf "L %s\n", system_path >link
            close(link)
            entry = entries "/nixos-generation-" number ".conf"
            printf "F 0644 0 0\ntitle NixOS\nversion Generation %d \nlinux %s/kernel\ninitrd %s/initrd\noptions init=%s/init\n", \
                number, system_path, system_path, system_path >entry
            close(entry)
        }
    }'
    restore "$1"
}

# Boots the system, by way of the words given, and sets `status`.
act() {
    "$@" "$program" "$root" boot nix/store/a-sys >"$work/stdout" 2>"$work/stderr"
    status=$?
}

# Judges a boot, and takes it back.
after() {
    local link=system-$(($1 + 1))-link entry=nixos-generation-$(($1 + 1)).conf
    if [ "$status" != 0 ] || [ "$(cat "$profiles/system")" != "L $link" ] ||
        [ "$(cat "$profiles/$link")" != "L /nix/store/a-sys" ] ||
        [ "$(sed -n 2p "$menu/loader.conf")" != "default $entry" ] ||
        ! grep -q "^version Generation $(($1 + 1)) 24.05$" "$menu/entries/$entry"; then
        wrong "$1" "status $status or another menu, $(cat "$work/stderr")"
    fi
    restore "$1"
}

# Measures a boot without a menu, and judges that it makes the whole one.
before() {
    mv "$root/tree/boot" "$work/menu"
    quickest 1 act
    after "$1"
    if ! diff -r "$root/tree/boot" "$work/menu" >"$work/difference"; then
        wrong "$1" "the first boot makes another menu: $(head -n 1 "$work/difference")"
    fi
    rm -rf "$work/menu"
    further=("$(thousandths "$micros")")
}

judge_counts() {
    [ "${counted[changes]}" -le 25 ] || wrong "$1" "${counted[changes]} calls change a file, and 25 may"
    [ "${counted[leaf read]}" -le 4 ] || wrong "$1" "${counted[leaf read]} calls for a leaf that is read, and 4 may be"
    [ "${counted[leaf put]}" -le 10 ] || wrong "$1" "${counted[leaf put]} calls for a leaf that is put, and 10 may be"
}

cat >"$work/count.awk" <<'AWK'
# The file that a call is on: what its descriptor stands for, or the first path that it names.
function file_of(call) {
    if (match(call, /^[a-z_0-9]+\([0-9]+<[^>]*>/)) {
        call = substr(call, 1, RLENGTH - 1)
        sub(/^[^<]*</, "", call)
        return call
    }
    return match(call, /"[^"]*"/) ? substr(call, RSTART + 1, RLENGTH - 2) : ""
}
# The last path that a call names.
function last_of(call) {
    sub(/"[^"]*$/, "", call)
    sub(/.*"/, "", call)
    return call
}
function is_change(kind, call) {
    if (kind ~ /^open/)
        return call ~ /O_(WRONLY|RDWR|CREAT|TRUNC)/
    return kind ~ /^(p?write|creat|f?truncate|fallocate|mk|rename|link|symlink|unlink|rmdir|[fl]?ch(mod|own)|u?time|futime|[fl]?setxattr)/
}

{ sub(/^[0-9]+ +/, "") }
!/^[a-z_0-9]+\(/ { next }
{
    kind = $0
    sub(/\(.*/, "", kind)
    file = file_of($0)
    below = index(file, root) == 1
    calls++
    if (below || own)
        own++
    if (below && is_change(kind, $0))
        changes++

    # A leaf is read by calls on it alone, one after the other, up to its close.
    row = file == last ? row + 1 : 1
    last = file
    if (kind ~ /^open/)
        is_read = below && $0 !~ /O_(WRONLY|RDWR|DIRECTORY)/
    if (kind == "close") {
        if (is_read && row > read)
            read = row
        is_read = 0
        last = ""
    }

    # A leaf is put by the calls on the stage and on its place since the report or the last put. What stands at
    # the place of an entry is read first.
    if (/^write\(1</)
        split("", seen)
    if (below)
        seen[file]++
    if (kind ~ /^rename/) {
        count = seen[file] + seen[last_of($0)]
        if (count > put)
            put = count
        split("", seen)
    }
}
END { print changes + 0, calls + 0, own + 0, read + 0, put + 0 }
AWK
