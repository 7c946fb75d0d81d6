# shellcheck shell=bash disable=SC2034,SC2154
# What tools/program, tools/build-unproved and tools/build-proved share: the sources of one program. A
# script sets `name`, the program's crate, before it reads this file.

home=$(cd "$(dirname "$(readlink -f "${BASH_SOURCE[0]}")")/.." && pwd)
kept=$home/out           # what is kept between calls
log=$kept/$name-build.log
copy=''                  # the copy of the sources that is being built
crates=()                # the crates that the program consists of, lowest first
parts=(crates.txt)       # their folders with sources, and crates.txt

# Prints the program's crate and all that it stands on, lowest first, as crates.txt has them.
print_crates() {
    tac "$home/crates.txt" | awk -F: -v name="$name" '
        BEGIN { needed[name] }
        /^#/ { next }
        { split($1, left, " ") }
        left[1] in needed {
            print left[1]
            count = split($2, below, " ")
            for (i = 1; i <= count; i++) needed[below[i]]
        }' | tac
}

mapfile -t crates < <(print_crates)
for word in "${crates[@]}"; do
    for part in src specs proofs; do
        [[ -d $home/crates/$word/$part ]] && parts+=("crates/$word/$part")
    done
done

# Says on standard error what failed, with the end of the build's log.
fail() {
    echo "apex: $1" >&2
    if [[ -n $copy && -s $log ]]; then
        tail -n 20 "$log" >&2
        echo "apex: all of it is in $log" >&2
    fi
    exit 70
}

# Prints the lines of crates.txt for the program's crates.
print_lines() {
    local crate filter=''
    for crate in "${crates[@]}"; do
        filter+="/^${crate}[ :]/p;"
    done
    sed -n "$filter" "$home/crates.txt"
}

# A sum of the sources below the folder $1.
sum_of() {
    {
        print_lines
        cd "$1" && find "${parts[@]:1}" -type f -print0 | LC_ALL=C sort -z | xargs -0 sha256sum
    } | sha256sum | cut -c 1-32
}

# Makes a copy of the sources, so that an edit during the build does not come into it.
make_copy() {
    local crate
    copy=$(mktemp -d "${TMPDIR:-/tmp}/apex-XXXXXX") || fail 'no folder for the build can be made'
    trap 'rm -rf "$copy"' EXIT
    mkdir -p "$copy/crates" "$copy/tmp" "$copy/.git"
    cp "$home/HANDLES" "$copy"
    print_lines >"$copy/crates.txt"
    for crate in "${crates[@]}"; do
        mkdir "$copy/crates/$crate"
        cp -r "$home/crates/$crate"/{src,specs,proofs,args,stdin,stdout,status} \
            "$copy/crates/$crate" 2>/dev/null
    done
    sum=$(sum_of "$copy")
}

# Keeps the program $2 as the $1 one of the copied sources, in place of older ones.
keep() {
    program=$kept/$name-$1-$sum
    chmod 755 "$2"
    if ! cp "$2" "$kept/new-$$" || ! mv "$kept/new-$$" "$program"; then
        fail "$kept cannot be written"
    fi
    find "$kept" -maxdepth 1 -name "$name-$1-*" ! -name "$name-$1-$sum" -delete
    echo "$program"
}

# Waits for another call that builds the same.
lock() {
    command -v rt >/dev/null || fail "the toolchain's command rt is not on this machine; README.md says what it is"
    mkdir -p "$kept" || fail "$kept cannot be made"
    exec 9>"$kept/$name-$1.lock"
    flock 9 || fail "$kept/$name-$1.lock cannot be locked"
}
