# Sourced by the scripts beside it: builds and runs a program whose text stands in this folder, in a copy of the
# crates that it stands on, so that it is no part of the gate. `rt` proves all of it first; crates that were built
# here already are taken as they are, where their sources haven't changed.
cd "$(dirname "${BASH_SOURCE[0]}")/.."
work=$(mktemp -d)

# Where anything failed, the end of the log is shown before the copy goes.
finish() {
    local status=$?
    if [ "$status" -ne 0 ] && [ -e "$work/log" ]; then
        tail -20 "$work/log" >&2
    fi
    rm -rf "$work"
    exit "$status"
}
trap finish EXIT

# below CRATES..: these crates and all that they stand on, by crates.txt.
below() {
    local names=$* before= name
    while [ "$names" != "$before" ]; do
        before=$names
        names=$(for name in $before; do
            echo "$name"
            sed -n "s/^$name://p" crates.txt | tr ' ' '\n' | while read -r it; do [ -d "crates/$it" ] && echo "$it"; done
        done | grep . | sort -u | xargs)
    done
    echo "$names"
}

# build_and_run NAME 'CRATES' 'CRATES OF THE KIT': the program of bench/NAME.txt over these crates and those below them,
# on this call's input. What `rt` and the program print is in $work/log then, and the program is
# $work/crates/NAME/out/NAME.
build_and_run() {
    local name=$1 crates kit=$3 crate
    crates=$(below $2)
    mkdir -p "$work/crates/$name/src"
    for crate in $crates; do
        [ -e "$work/crates/$crate" ] || cp -a "crates/$crate" "$work/crates/"
    done
    cp "bench/$name.txt" "$work/crates/$name/src/main.rt"
    grep -E "^(${crates// /|}):" crates.txt > "$work/crates.txt"
    echo "$name: $crates $kit" >> "$work/crates.txt"
    (cd "$work/crates/$name" && rt run --jobs 1) > "$work/log" 2>&1
}
