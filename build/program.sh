# For ./soar_app and ./prove: where the proved and the unproved program stand, and whether their sources are newer.
# $top is the top of the repository.
# shellcheck shell=sh disable=SC2034 # the names below are for the scripts that read this file

out=$top/crates/soar_app/out
proved=$out/soar_app
unproved=$out/soar_app.unproved
# Written by ./prove, with the time at which it began.
proof_began=$proved.built

# Prints the crates of the program in the order in which rt proves them, each after those that it stands on.
program_crates() {
    awk -F: '
        function visit(name,    below, many, i) {
            if (!(name in uses) || name in seen) return
            seen[name]
            many = split(uses[name], below, " ")
            for (i = 1; i <= many; i++) visit(below[i])
            print name
        }
        { sub(/#.*/, "") }
        NF { split($1, words, " "); uses[words[1]] = $2 }
        END { visit("soar_app") }' "$top/crates.txt"
}

# newer_source FILE PART..: prints a source that is newer than FILE, if there is one. PART is src, specs or proofs.
newer_source() (
    file=$1
    shift
    cd -- "$top/crates" || exit
    folders=$(program_crates | while read -r crate; do printf "$crate/%s\n" "$@"; done)
    # shellcheck disable=SC2086 # names of crates have no blanks
    find ../crates.txt $folders \( -name '*.rt' -o -name '*.antt' -o -name crates.txt \) -newer "$file" -print 2>/dev/null |
        head -n 1
)

# is_current FILE PART..: whether FILE is there and no source in these parts is newer.
is_current() {
    [ -e "$1" ] && [ -z "$(newer_source "$@")" ]
}

# hold_lock FILE: waits until no other build holds the lock FILE, and holds it until this shell ends.
hold_lock() {
    exec 9>"$1" || return 1
    flock -n 9 || { echo "${0##*/}: waiting for another build" >&2 && flock 9; }
}
