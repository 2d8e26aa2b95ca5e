# What bench/run, bench/check and tools/memory share. `top` is the repository.

# Where the program of that name is: a benchmark, or one of tools/.
folder_of() {
    local it
    for it in "$top/bench/$1" "$top/tools/$1"; do
        if [ -f "$it/main.rt.txt" ]; then
            echo "$it"
            return
        fi
    done
    echo "no program: $1" >&2
    return 2
}

# Makes a program a crate of the workspace `work`, with the files of other crates that it takes in as its own. Each line of
# bench/NAME/taken names a crate and some of its files and folders; what bench/NAME/more/FILE.txt has stands below the text of FILE, so
# that a benchmark can measure apart what is private there. What bench/NAME/proofs has of a proof, as FILE.txt, is the program's.
add_program() {
    local name=$1 work=$2 src own=$2/crates/bench_of_$1 crate paths path
    src=$(folder_of "$name")
    mkdir -p "$own/src"
    cp "$src/main.rt.txt" "$own/src/main.rt"
    echo "bench_of_$name: $(cat "$src/deps")" >>"$work/crates.txt"
    if [ -d "$src/proofs" ]; then
        cp -r "$src/proofs" "$own/"
        find "$own/proofs" -name '*.txt' -exec bash -c 'mv "$1" "${1%.txt}"' _ {} \;
    fi
    [ -f "$src/taken" ] || return 0
    while read -r crate paths; do
        for path in $paths; do
            mkdir -p "$(dirname "$own/$path")"
            cp -r "$top/crates/$crate/$path" "$own/$path"
            find "$own/$path" -type f -exec sed -i "s/Rattle\.$crate\./Rattle.bench_of_$name./g" {} +
        done
    done <"$src/taken"
    for path in "$src"/more/src/*.rt.txt; do
        [ ! -f "$path" ] || cat "$path" >>"$own/src/$(basename "$path" .txt)"
    done
}
