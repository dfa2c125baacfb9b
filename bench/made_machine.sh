# Makes built systems in the form in which nixpkgs builds them, and a machine on which one of them is in use. It is read by
# scripts of this folder and does nothing by itself.
#
# `made` is the folder below which all of it is made: its nix/store, etc, var and run. Links in it are absolute, as on a
# machine, so tools/import is told where they begin by --sysroot.
# shellcheck shell=bash
made=$work/made

# put PLACE TEXT [MODE]: a file of the machine.
put() {
    mkdir -p "$made${1%/*}"
    rm -f -- "$made$1"
    printf '%s' "$2" >"$made$1"
    chmod "${3:-444}" "$made$1"
}

# point PLACE TARGET: a link of the machine.
point() {
    mkdir -p "$made${1%/*}"
    ln -sfn -- "$2" "$made$1"
}

# stored NAME [SEED]: the place of this name in the store.
stored() {
    printf '/nix/store/%s-%s' "$(printf '%s %s' "$1" "${2-}" | md5sum | cut -c 1-32)" "$1"
}

# unit FOLDER NAME TEXT: a unit of a system, as a link to a file of its own in the store.
unit() {
    local at
    at=$(stored "unit-$2" "$3")
    put "$at/${2##*/}" "$3"
    point "$1/$2" "$at/${2##*/}"
}

# user NAME UID GROUP FURTHER..: a user of the specification, all of whose keys nixpkgs writes.
user() {
    printf '{"autoSubUidGidRange":false,"createHome":false,"description":"","expires":null,"group":"%s",' "$3"
    printf '"hashedPassword":null,"hashedPasswordFile":%s,"home":"/var/empty","homeMode":"700",' "${4:-null}"
    printf '"initialHashedPassword":null,"initialPassword":%s,"isSystemUser":%s,"name":"%s","password":null,' "${5:-null}" "${6:-true}" "$1"
    printf '"shell":"/run/current-system/sw/bin/nologin","subGidRanges":[],"subUidRanges":[],"uid":%s}' "$2"
}

# make_toplevel NUMBER VERSION: a built system, the second one with more in it. Sets `top` to its place in the store.
make_toplevel() {
    local upstream units etc users more='' part
    upstream=$(stored systemd-256)/example/systemd/system
    put "$upstream/multi-user.target" $'[Unit]\nDescription=Multi-User System\nRequires=basic.target\nAllowIsolate=yes\n'
    put "$upstream/basic.target" $'[Unit]\nDescription=Basic System\n'
    put "$upstream/getty@.service" $'[Unit]\nDescription=Getty on %I\n[Service]\nExecStart=-/sbin/agetty %I\n'
    units=$(stored system-units "$1")
    for part in multi-user.target basic.target getty@.service; do
        point "$units/$part" "$upstream/$part"
    done
    point "$units/default.target" multi-user.target
    put "$(stored unit-masked.service-disabled)/none" ''
    point "$(stored unit-masked.service-disabled)/masked.service" /dev/null
    point "$units/masked.service" "$(stored unit-masked.service-disabled)/masked.service"
    point "$units/udev-settle.service" /dev/null
    unit "$units" nginx.service $'[Unit]\nX-Restart-Triggers='"$1"$'\n[Service]\nExecStart=/bin/nginx\nX-StopIfChanged=false\n'
    point "$units/multi-user.target.wants/nginx.service" ../nginx.service
    unit "$units" getty@.service.d/overrides.conf $'[Service]\nEnvironment=LOCALE=/locale-'"$1"$'\n'
    unit "$units" 'home-a\x2db.mount' $'[Mount]\nWhat=/dev/ab\nWhere=/home/a-b\nType=ext4\n'
    if [ "$1" = 2 ]; then
        unit "$units" metrics.service $'[Service]\nExecStart=/bin/metrics\n'
        point "$units/multi-user.target.wants/metrics.service" ../metrics.service
        more=,$(user metrics null metrics '"/run/secrets/metrics"'),$(user web null users '"/run/secrets/none"' null false)
    fi
    etc=$(stored etc "$1")/etc
    point "$etc/systemd/system" "$units"
    put "$(stored etc-fstab "$1")" $'/dev/disk/by-label/nixos / ext4 x-initrd.mount 0 1\n/dev/sda1 /boot vfat defaults 0 2\n/dev/sda2 none swap defaults 0 0\n'
    point "$etc/fstab" "$(stored etc-fstab "$1")"
    put "$(stored sudoers "$1")" "%wheel ALL=(ALL:ALL) SETENV: ALL # $1"$'\n'
    point "$etc/sudoers" "$(stored sudoers "$1")"
    put "$etc/sudoers.mode" $'0440\n'
    put "$etc/sudoers.uid" $'+0\n'
    put "$etc/sudoers.gid" $'wheel\n'
    point "$etc/localtime" /etc/zoneinfo/Europe/Berlin
    put "$etc/localtime.mode" $'direct-symlink\n'
    put "$etc/localtime.uid" $'+0\n'
    put "$etc/localtime.gid" $'+0\n'
    point "$etc/zoneinfo" "$(stored tzdata)/share/zoneinfo"
    point "$etc/pam.d/login" "$(stored login.pam)"
    point "$etc/hostname" "$(stored etc-hostname)"
    [ "$1" = 1 ] || point "$etc/motd" "$(stored etc-motd)"
    users=$(stored users-groups.json "$1")
    put "$users" '{"groups":[{"gid":0,"members":[],"name":"root"},{"gid":1,"members":["alice"],"name":"wheel"},{"gid":60,"members":[],"name":"nginx"},{"gid":100,"members":[],"name":"users"},{"gid":null,"members":[],"name":"metrics"},{"gid":65534,"members":[],"name":"nogroup"}],"mutableUsers":true,"users":['"$(user root 0 root),$(user nginx 60 nginx),$(user alice 1000 users null '"hello"' false),$(user nobody 65534 nogroup)$more]}"
    top=$(stored "nixos-system-box-$2")
    put "$top/nixos-version" "$2"
    put "$top/kernel-params" 'loglevel=4 root=LABEL=nixos'
    put "$top/init" $'#!/bin/sh\n' 555
    put "$top/activate" $'#!/bin/sh\n#### Activation script snippet binsh:\n#### Activation script snippet users:\n/bin/perl -w /update-users-groups.pl '"$users"$'\n#### Activation script snippet etc:\n' 555
    point "$top/etc" "$etc"
    point "$top/kernel" "$(stored linux-6.6)/bzImage"
    point "$top/initrd" "$(stored initrd "$1")/initrd"
    point "$top/specialisation/quiet" "$(stored quiet)"
}

# make_machine_files TOP: the machine's own files, with this system in use.
make_machine_files() {
    local entry
    point /run/current-system "$1"
    point /etc/static "$(readlink "$made$1/etc")"
    point /etc/systemd/system /etc/static/systemd/system
    for entry in fstab zoneinfo pam.d/login hostname; do
        point "/etc/$entry" "/etc/static/$entry"
    done
    point /etc/localtime /etc/zoneinfo/Europe/Berlin
    put /etc/sudoers $'%wheel ALL=(ALL:ALL) SETENV: ALL # 1\n' 440
    put /etc/.clean $'localtime\nsudoers\n' 644
    put /etc/NIXOS '' 644
    put /etc/machine-id $'0123\n' 444
    put /etc/passwd $'root:x:0:0::/var/empty:/bin/sh\nnginx:x:60:60::/var/empty:/bin/sh\nalice:x:1000:100::/home/alice:/bin/sh\nnobody:x:65534:65534::/var/empty:/bin/sh\n' 644
    put /etc/group $'root:x:0:\nwheel:x:1:alice\nnginx:x:60:\nusers:x:100:\nnogroup:x:65534:\n' 644
    put /etc/shadow $'root:!:1::::::\nnginx:!:1::::::\nalice:$6$x:1::::::\nnobody:!:1::::::\n' 640
    put /var/lib/nixos/uid-map '{"alice":1000,"nginx":60,"nobody":65534,"root":0}' 644
    put /var/lib/nixos/gid-map '{"nginx":60,"nogroup":65534,"root":0,"users":100,"wheel":1}' 644
    put /var/lib/nixos/declarative-users 'alice nginx nobody root' 644
    put /var/lib/nixos/declarative-groups 'nginx nogroup root users wheel' 644
    put /run/secrets.d/1/metrics $'$6$a"\\\t$hash\nsecond line\n' 400
    point /run/secrets secrets.d/1
    cat >"$made/units.txt" <<'END'
  -.mount             loaded active   mounted    Root Mount
● bad.service         loaded failed   failed     Bad
  basic.target        loaded active   active     Basic System
  getty@tty1.service  loaded active   running    Getty on tty1
  home-a\x2db.mount   loaded active   mounted    /home/a-b
  multi-user.target   loaded active   active     Multi-User System
  nginx.service       loaded active   running    Nginx
  slow.service        loaded activating start    Slow
  gone.service        loaded deactivating stop   Gone
  rescue.service      loaded inactive dead       Rescue
  odd name.service    loaded active   running    Odd
END
}
