# Sourced by the commands beside it: finds the source, builds what is needed, or says why nothing ran.

here=$(cd "$(dirname "${BASH_SOURCE[0]}")" && pwd)
root=$(cd "$here/.." && pwd)
target=$root/target/oracle

not_run() {
    echo "not run: $1"
    exit 0
}

# found_in FOLDER PATH: the file of that path in the original's repository, in the folder: a checkout of it (or a copy with .txt after each name), or
# flat, as in the project's documents.
found_in() {
    local flat=${2//\//--} name
    for name in "$2" "$2.txt" "$flat.txt" "src--$flat.txt"; do
        [[ ! -r $1/$name ]] || { echo "$1/$name"; return; }
    done
    return 1
}

# The Rust's two files are in the folder KOFUDILE_SOURCE, or in the first of these that has them; a relative one counts from the repository's root.
# Sets KOFUDILE_WINDOW and KOFUDILE_POLICY, the paths that the builds read.
find_source() {
    local folder folders=(../shared docs/src ../docs/src ../bitcoin-rs) module=crates/node/src/p2p/download_window
    [[ -z ${KOFUDILE_SOURCE:-} ]] || folders=("$KOFUDILE_SOURCE")
    for folder in "${folders[@]}"; do
        [[ $folder = /* ]] || folder=$root/$folder
        KOFUDILE_WINDOW=$(found_in "$folder" "$module.rs") && KOFUDILE_POLICY=$(found_in "$folder" "$module/policy.rs") || continue
        export KOFUDILE_WINDOW KOFUDILE_POLICY
        return
    done
    not_run "the Rust source is not in ${folders[*]} (set KOFUDILE_SOURCE)"
}

build() {
    command -v cargo >/dev/null || not_run "cargo is not here"
    find_source
    if ! cargo build --quiet --offline --release --manifest-path "$here/Cargo.toml" --target-dir "$target" >&2; then
        echo "0 passed, 1 failed"
        exit 1
    fi
}

# oracle COMMAND CALLS SEED OPTIONS...
oracle() {
    ORACLE_TARGET=$target ORACLE_HERE=$here "$target/release/oracle" "$@"
}

# closed FOLDER: whether the closed checks of the crate in FOLDER/closed hold of the definitions, which are built beside it; what rattle says goes to FOLDER/log.
closed() {
    "$here/rattle" build model "$root/crates/model" -o "$1/model.rlib" > "$1/log" 2>&1 &&
        "$here/rattle" check closed "$1/closed" --extern model="$1/model.rlib" > "$1/log" 2>&1
}
