# Reading and writing tables of so many rows, beside a plain read of the same bytes: each table once with the rows of accounts that
# can't log in, once with short rows, and once with 16,777,216 bytes; and a specification and a map of ids with as many bytes,
# beside a parse into the library's JSON value. For each it prints the milliseconds of the quickest of five runs, and the peak
# memory beside a plain read, as so many times the bytes. Then it reads this machine's own tables, where they can be read, and
# some wrong ones, and prints what the program and pwck -r or grpck -r say of each, where those are there. A table has to be read
# whole and written as it was.
# shellcheck shell=bash disable=SC2034,SC2154
default_sizes=(65536)
bytes=16777216
if [ ! -x /usr/bin/time ]; then
    echo "no /usr/bin/time" >&2
    exit 1
fi

# make_table KIND WIDTH: a table whose rows have a text of this width, or those of accounts that can't log in
# where it is `none`.
make_table() {
    awk -v kind="$1" -v rows="$rows" -v width="$2" 'BEGIN {
        if (width == "none") {
            for (number = 1; number <= rows; number++) {
                if (kind == "passwd")
                    print "nixbld" number ":x:" 30000 + number ":30000:Nix build user " number ":/var/empty:/run/current-system/sw/bin/nologin"
                else if (kind == "group")
                    print "service-" number ":x:" number ":"
                else
                    print "nixbld" number ":!:1::::::"
            }
            exit
        }
        text = sprintf("%" width "s", "")
        gsub(/ /, "t", text)
        for (number = 1; number <= rows; number++) {
            if (kind == "passwd")
                print "user-" number ":x:" number ":100:" text ":/home/user-" number ":/bin/sh"
            else if (kind == "group")
                print "group-" number ":x:" number ":" text ",user-" number
            else
                print "user-" number ":" text ":19000:0:99999:7:::"
        }
    }' >"$work/table"
}

# make_json KIND: a specification of users and groups, or a map of ids, with about so many bytes as are asked for.
make_json() {
    awk -v kind="$1" -v bytes="$bytes" 'BEGIN {
        if (kind == "ids") {
            printf "{"
            for (number = 100000; number < 100000 + bytes / 21; number++)
                printf "%s\"user-%d\":%d", (number > 100000 ? "," : ""), number, number
            print "}"
            exit
        }
        printf "{\"mutableUsers\":true,\"groups\":["
        for (number = 1; number <= bytes / 305; number++)
            printf "%s{\"name\":\"group-%d\",\"gid\":null,\"members\":[\"user-%d\"]}", (number > 1 ? "," : ""), number, number
        printf "],\"users\":["
        for (number = 1; number <= bytes / 305; number++) {
            printf "%s{\"name\":\"user-%d\",\"uid\":%d,\"group\":\"group-%d\",\"isSystemUser\":false,", (number > 1 ? "," : ""), number, number, number
            printf "\"description\":\"User number %d\",\"home\":\"/home/user-%d\",\"shell\":\"/run/current-system/sw/bin/bash\",", number, number
            printf "\"hashedPassword\":null,\"initialHashedPassword\":\"!\",\"createHome\":true}"
        }
        print "]}"
    }' >"$work/table"
}

# measure WORD KIND WANTED: sets `micros` to the microseconds of the quickest run, and `peak` to its kilobytes.
measure() {
    quickest_telling "$3" "$built" "$1" "$2" "$work/table"
    peak=$(/usr/bin/time -f %M "$built" "$1" "$2" "$work/table" 2>&1 >"$work/stdout" | tail -n 1)
}

# told KIND WIDTH: measures a table and prints a line.
told() {
    local size plain plain_peak read read_peak
    make_table "$1" "$2"
    size=$(stat -c %s "$work/table")
    measure plain "$1" "$size"
    plain=$micros
    plain_peak=$peak
    measure read "$1" "$rows"
    read=$micros
    read_peak=$peak
    measure write "$1" "$size"
    awk -v kind="$1" -v size="$size" -v plain="$plain" -v read="$read" -v write="$micros" -v a="$plain_peak" -v b="$read_peak" -v c="$peak" 'BEGIN {
        printf "%-6s %9d bytes: read alone %6.1f ms, rows %6.1f ms, written too %6.1f ms; memory %5.1f MB, rows %5.1f MB more (x%.2f), written too %5.1f MB more\n",
            kind, size, plain / 1000, read / 1000, write / 1000, a / 1000, (b - a) / 1000, (b - a) * 1024 / size, (c - a) / 1000
    }'
}

# told_json KIND COUNT: measures a specification or a map with this many accounts and prints a line.
told_json() {
    local size plain plain_peak value value_peak read read_peak
    make_json "$1"
    size=$(stat -c %s "$work/table")
    measure plain "$1" "$size"
    plain=$micros
    plain_peak=$peak
    measure value "$1" "$size"
    value=$micros
    value_peak=$peak
    measure read "$1" "$2"
    read=$micros
    read_peak=$peak
    awk -v kind="$1" -v size="$size" -v plain="$plain" -v value="$value" -v read="$read" -v a="$plain_peak" -v v="$value_peak" -v b="$read_peak" 'BEGIN {
        printf "%-6s %9d bytes: read alone %6.1f ms, JSON value %6.1f ms, accounts %6.1f ms; memory %5.1f MB, JSON value %5.1f MB more (x%.2f), accounts %5.1f MB more (x%.2f)\n",
            kind, size, plain / 1000, value / 1000, read / 1000, a / 1000, (v - a) / 1000, (v - a) * 1024 / size, (b - a) / 1000, (b - a) * 1024 / size
    }'
    if [ "$1" = ids ]; then
        measure write "$1" "$size"
        awk -v write="$micros" -v a="$plain_peak" -v c="$peak" 'BEGIN { printf "%-6s written too %6.1f ms; %5.1f MB more\n", "ids", write / 1000, (c - a) / 1000 }'
    fi
}

# beside KIND FILE NAME [USERS]: what the program and the system's own checker say of a table.
beside() {
    local kind=$1 file=$2 name=$3 users=${4:-$work/users} ours theirs status
    ours=$("$built" read "$kind" "$file")
    case $kind in
    passwd) theirs=$(pwck -r "$file" </dev/null 2>&1) ;;
    group) theirs=$(grpck -r "$file" </dev/null 2>&1) ;;
    *) theirs=$(pwck -r "$users" "$file" </dev/null 2>&1) ;;
    esac
    status=$?
    theirs=$(grep -v 'directory\|no changes\|delete\|add user\|program' <<<"$theirs" | tr '\n' ' ' | cut -c 1-90)
    printf '%-6s %-28s ours: %-8s its checker: %s %s\n' "$kind" "$name" "$ours" "$status" "$theirs"
}

# wrong KIND NAME TEXT: the same, of this text.
wrong() {
    printf '%b' "$3" >"$work/wrong"
    beside "$1" "$work/wrong" "$2"
}

build_small read_accounts account_text users_spec id_memory switch_names serde_json <<'RATTLE'
//! Reads a file and prints how many bytes it has, how many rows or accounts, or how many bytes are written of
//! them, or what is wrong with it.
#![tactic(auto)]

use account_text::{RowFault, read_group, read_passwd, read_shadow, write_group, write_passwd, write_shadow};
use id_memory::{IdFault, IdMap};
use serde_json::Value;
use std::alloc::{AllocError, Global};
use std::{env, fs, io};
use users_spec::{Spec, SpecFault};

/// Why there is no number to print.
#[derive(Drop)]
enum Fault {
    /// This line of a table is no row.
    Line(u32),
    /// A text is no specification, no map or no JSON value.
    Form,
    /// There was no memory.
    Memory,
}

impl From<AllocError> for Fault {
    fn from(_error: AllocError) -> Fault {
        Fault::Memory
    }
}

impl From<RowFault> for Fault {
    fn from(fault: RowFault) -> Fault {
        match fault {
            RowFault::Line(number) => Fault::Line(number),
            RowFault::Memory => Fault::Memory,
        }
    }
}

impl From<SpecFault> for Fault {
    fn from(fault: SpecFault) -> Fault {
        match fault {
            SpecFault::Memory => Fault::Memory,
            _ => Fault::Form,
        }
    }
}

impl From<IdFault> for Fault {
    fn from(fault: IdFault) -> Fault {
        match fault {
            IdFault::Form => Fault::Form,
            IdFault::Memory => Fault::Memory,
        }
    }
}

/// The number to print for a passwd table.
fn passwd(alloc: Global, is_writing: bool, bytes: &[u8]) -> Result<usize, Fault> {
    let rows = read_passwd(alloc, bytes)?;
    if is_writing {
        return Ok(write_passwd(alloc, &rows)?.as_slice().len());
    }
    Ok(rows.as_slice().len())
}

/// The number to print for a group table.
fn group(alloc: Global, is_writing: bool, bytes: &[u8]) -> Result<usize, Fault> {
    let rows = read_group(alloc, bytes)?;
    if is_writing {
        return Ok(write_group(alloc, &rows)?.as_slice().len());
    }
    Ok(rows.as_slice().len())
}

/// The number to print for a shadow table.
fn shadow(alloc: Global, is_writing: bool, bytes: &[u8]) -> Result<usize, Fault> {
    let rows = read_shadow(alloc, bytes)?;
    if is_writing {
        return Ok(write_shadow(alloc, &rows)?.as_slice().len());
    }
    Ok(rows.as_slice().len())
}

/// How many users a specification declares.
fn users(alloc: Global, bytes: &[u8]) -> Result<usize, Fault> {
    let accounts = Spec::read(alloc, bytes)?;
    Ok(accounts.users().as_slice().len())
}

/// The number to print for a map of ids.
fn ids(alloc: Global, is_writing: bool, bytes: &[u8]) -> Result<usize, Fault> {
    let map = IdMap::read(alloc, bytes)?;
    if is_writing {
        return Ok(map.write(alloc)?.as_slice().len());
    }
    Ok(map.rows().as_slice().len())
}

/// How many bytes were parsed into a JSON value, and nothing else.
fn value(alloc: Global, bytes: &[u8]) -> Result<usize, Fault> {
    match Value::from_slice(alloc, bytes) {
        Ok(_value) => Ok(bytes.len()),
        Err(_) => Err(Fault::Form),
    }
}

/// The number to print for a word and a kind of file.
fn number(alloc: Global, word: &str, kind: &str, bytes: &[u8]) -> Result<usize, Fault> {
    let is_writing = word == "write";
    match word {
        "plain" => Ok(bytes.len()),
        "value" => value(alloc, bytes),
        _ => match kind {
            "passwd" => passwd(alloc, is_writing, bytes),
            "group" => group(alloc, is_writing, bytes),
            "shadow" => shadow(alloc, is_writing, bytes),
            "spec" => users(alloc, bytes),
            _ => ids(alloc, is_writing, bytes),
        },
    }
}

fn main(rt: HostRuntime) -> io::Result<()> {
    let mut arguments = env::args(&rt)?;
    let _program = arguments.next();
    let (Some(word), Some(kind), Some(file)) = (arguments.next(), arguments.next(), arguments.next())
    else {
        return Ok(());
    };
    let bytes = fs::read(&rt, file.as_str())?;
    match number(rt.alloc(), word.as_str(), kind.as_str(), bytes.as_slice()) {
        Ok(number) => println!(rt; "{number}")?,
        Err(Fault::Line(number)) => println!(rt; "line {number}")?,
        Err(Fault::Form) => println!(rt; "wrong")?,
        Err(Fault::Memory) => println!(rt; "no memory")?,
    }
    Ok(())
}
RATTLE

rows() {
    local kind
    for rows in "$@"; do
        echo "$rows rows"
        for kind in passwd group shadow; do
            told "$kind" none
            told "$kind" 8
            told "$kind" $(((bytes - rows * 50) / rows))
        done
        told_json spec $((bytes / 305))
        told_json ids $(((bytes + 20) / 21))
    done
}

# Beside the system's own checkers, where those are there.
finish() {
    command -v pwck >"$work/stdout" && command -v grpck >"$work/stdout" || return 0
    echo "beside pwck -r and grpck -r"
    printf 'a:x:1:1::/:/bin/sh\n' >"$work/users"
    for kind in passwd group shadow; do
        [ ! -r "/etc/$kind" ] || beside "$kind" "/etc/$kind" "this machine's" /etc/passwd
    done
    wrong passwd 'six fields' 'a:x:1:1::/\n'
    wrong passwd 'eight fields' 'a:x:1:1::/:/bin/sh:\n'
    wrong passwd 'an empty name' ':x:1:1::/:/bin/sh\n'
    wrong passwd 'an empty line' 'a:x:1:1::/:\n\nb:x:2:1::/:\n'
    wrong passwd 'one name twice' 'a:x:1:1::/:\na:x:2:1::/:\n'
    wrong passwd 'one id twice' 'a:x:1:1::/:\nb:x:1:1::/:\n'
    wrong passwd 'an id past the greatest' 'a:x:4294967295:1::/:\n'
    wrong passwd 'an id of eleven digits' 'a:x:00000000001:1::/:\n'
    wrong passwd 'a sign before an id' 'a:x:+1:1::/:\n'
    wrong passwd 'a blank before an id' 'a:x: 1:1::/:\n'
    wrong passwd 'a compatibility entry' '+::::::\n'
    wrong passwd 'a comment' '# users\n'
    wrong passwd 'a name with a blank' 'a b:x:1:1::/:\n'
    wrong passwd 'bytes that are no UTF-8' 'a:x:1:1:\xff:/:\n'
    wrong group 'three fields' 'g:x:5\n'
    wrong group 'five fields' 'g:x:5::\n'
    wrong group 'an empty member' 'g:x:5:root,,root\n'
    wrong group 'a member that is no user' 'g:x:5:nobody-at-all\n'
    wrong group 'one name twice' 'g:x:5:\ng:x:6:\n'
    wrong group 'no id' 'g:x::\n'
    wrong shadow 'eight fields' 'a:!:1:::::\n'
    wrong shadow 'ten fields' 'a:!:1:::::::\n'
    wrong shadow 'letters for a day' 'a:!:x::::::\n'
    wrong shadow 'one name twice' 'a:!:1::::::\na:!:1::::::\n'
    wrong shadow 'a name that is no user' 'a:!:1::::::\nzed:!:1::::::\n'
}
