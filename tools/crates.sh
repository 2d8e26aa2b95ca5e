# What tools/build and tools/wrong share: the crates of the workspace, and copies of them. `top` is the repository.

# A crate's line in crates.txt.
line() {
    grep -E "^$1( [^:]*)?:" "$top/crates.txt"
}

# The crates of the workspace that a crate names there.
below() {
    local name
    for name in $(line "$1" | sed 's/^[^:]*://'); do
        [ -d "$top/crates/$name" ] && echo "$name"
    done
    return 0
}

# Puts all crates that a crate stands on behind those of `order`, itself last, each once.
closure() {
    local name
    case " ${order[*]} " in *" $1 "*) return ;; esac
    for name in $(below "$1"); do
        closure "$name"
    done
    order+=("$1")
}

# A workspace of a crate and all that it stands on, without edits: their sources, and hard links to what their earlier builds left.
workspace() {
    local to=$2 name part order=()
    closure "$1"
    for name in "${order[@]}"; do
        mkdir -p "$to/crates/$name/out"
        for part in src specs proofs; do
            [ ! -d "$top/crates/$name/$part" ] || cp -r "$top/crates/$name/$part" "$to/crates/$name/"
        done
        for part in rlib incremental; do
            [ ! -d "$top/crates/$name/out/$part" ] || cp -rl "$top/crates/$name/out/$part" "$to/crates/$name/out/"
        done
        line "$name" >>"$to/crates.txt"
    done
    cp "$top/HANDLES" "$to/"
}
