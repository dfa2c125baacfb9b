# Completes nixswitch in fish: its commands, and the systems of the root that stands before them.
function __nixswitch_words
    test (count (commandline -opc)) = $argv[1]
end

# Whether the words so far are a root and a command that takes a system.
function __nixswitch_takes_system
    set -l words (commandline -opc)
    test (count $words) = 3; and contains -- $words[3] switch test boot dry-activate
end

function __nixswitch_systems
    set -l root (commandline -opc)[2]
    for file in $root/tree/nix/store/*/nixos-version
        string replace -r '^.*/tree/(nix/store/[^/]*)/nixos-version$' '$1' -- $file
    end
end

complete -c nixswitch -f
complete -c nixswitch -n '__nixswitch_words 1' -a '(__fish_complete_directories)'
complete -c nixswitch -n '__nixswitch_words 1' -l help -d 'what it does'
complete -c nixswitch -n '__nixswitch_words 1' -l version -d 'its version'
complete -c nixswitch -n '__nixswitch_words 2' -a switch -d 'boot default, and brought into use'
complete -c nixswitch -n '__nixswitch_words 2' -a test -d 'brought into use'
complete -c nixswitch -n '__nixswitch_words 2' -a boot -d 'boot default'
complete -c nixswitch -n '__nixswitch_words 2' -a dry-activate -d 'what test would do'
complete -c nixswitch -n '__nixswitch_words 2' -a rollback -d 'back to the generation before'
complete -c nixswitch -n '__nixswitch_words 2' -a start-up -d 'what the profile names, after a boot'
complete -c nixswitch -n '__nixswitch_words 2' -a generations -d 'which there are'
complete -c nixswitch -n '__nixswitch_words 2' -a collect -d 'drops old generations and what no root reaches'
complete -c nixswitch -n '__nixswitch_words 2' -a rehearse -d 'a made machine, in memory'
complete -c nixswitch -n '__nixswitch_words 2' -a rehearse-jobs -d 'a made machine, whose jobs end later'
complete -c nixswitch -n __nixswitch_takes_system -a '(__nixswitch_systems)' -d 'a built system'
complete -c nixswitch-import -l here -d 'this machine too'
complete -c nixswitch-import -l current -d 'the system is in use'
complete -c nixswitch-import -l machine -r -a '(__fish_complete_directories)' -d 'etc and var/lib/nixos below'
complete -c nixswitch-import -l units -r -F -d 'states that systemctl printed'
complete -c nixswitch-import -l no-secrets -d 'reads no secret'
complete -c nixswitch-import -l sysroot -r -a '(__fish_complete_directories)' -d 'where links begin'
