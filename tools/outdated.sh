# What ./sizing and tools/archive share: whether a built file is older than the crates it is built from; `root` is set.
# shellcheck shell=bash disable=SC2154

# The crates that a crate uses, by crates.txt.
uses() {
    sed -n "s/^$1\( staticlib\)\?: *//p" "$root/crates.txt"
}

# The crates that a crate stands on, itself among them.
rooms() {
    local found=" " left=$1 name
    while [ -n "$left" ]; do
        name=${left%% *}
        left=${left#"$name"}
        left=${left# }
        case $found in *" $name "*) continue ;; esac
        found+="$name "
        left="$(uses "$name") $left"
        left=${left# }
        left=${left% }
    done
    echo "$found"
}

# Whether what is built from a crate is missing, or older than a source of the crates that it stands on.
outdated() {
    local name part sources=("$root/crates.txt")
    [ -e "$2" ] || return 0
    for name in $(rooms "$1"); do
        for part in src specs proofs; do
            [ ! -d "$root/crates/$name/$part" ] || sources+=("$root/crates/$name/$part")
        done
    done
    [ -n "$(find "${sources[@]}" -type f -newer "$2" -print -quit)" ]
}
