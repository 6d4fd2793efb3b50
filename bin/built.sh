# Tells whether the program was built from a proof of the sources as they stand.
# bin/poet and .ci/run source it, with the repository's folder in $top. A function that decides gives 0 for yes,
# 1 for no, and 2 where a tool failed, so that nothing can be said.

crate=$top/crates/poet
program=$crate/out/poet
# The sum of the sources that the program was built from, and its own sum, as `record` writes them.
built=$program.built

say() {
    printf 'poet: %s\n' "$1" >&2
}

# Calls find, with these words, on all that rt makes the program from: the sources of every crate.
find_sources() {
    (cd "$top" && find crates.txt HANDLES crates/*/src crates/*/specs crates/*/proofs "$@")
}

# Prints one sum of the names and the bytes of all sources.
sum_of_sources() {
    (
        set -o pipefail
        find_sources -type f -print0 | LC_ALL=C sort -z | (cd "$top" && xargs -0 sha256sum) | sha256sum
    )
}

# Prints a source, or a folder of them, that was touched after this time (in seconds), also where it was
# changed back.
touched_since() {
    find_sources -newerct "@$1" -print -quit
}

# Notes that a build with a proof has just made the program. Its words are the sum of the sources and the time,
# both from before that build. A source that was touched since counts as changed, and nothing is noted.
record() {
    local now touched own
    now=$(sum_of_sources) && touched=$(touched_since "$2") && own=$(sha256sum <"$program") || return 2
    if [ "$now" != "$1" ] || [ -n "$touched" ]; then
        say "a source changed while the program was built: run this again"
        return 1
    fi
    printf '%s\n%s\n' "$now" "$own" >"$built" || return 2
}

# Whether `rt ci` made the program, from the sources as they stand. It writes no stamp and no record. But first it
# moves each crate's out/ away, before it reads a crate's sources it makes that crate's out/ anew, and when it has
# run the program, it writes out/stdout. So no source may have been touched since the oldest out/ was made.
is_of_ci() {
    local folder born changed touched oldest=
    [ "$crate/out/stdout" -nt "$program" ] || return 1
    for folder in "$top"/crates/*/src; do
        folder=${folder%/src}
        [ -d "$folder/out" ] || return 1
        born=$(stat -c %W "$folder/out") && changed=$(stat -c %Z "$folder") || return 2
        # Where src/, specs/ or proofs/ went as a whole, the crate's own folder tells. Making out/ changes it too.
        [ "$changed" -le $((born + 1)) ] || return 1
        if [ -z "$oldest" ] || [ "$born" -lt "$oldest" ]; then
            oldest=$born
        fi
    done
    touched=$(touched_since "$oldest") || return 2
    [ -z "$touched" ]
}

# Whether the program was built from a proof of the sources as they stand.
is_current() {
    local now own was
    [ -x "$program" ] || return 1
    now=$(sum_of_sources) && own=$(sha256sum <"$program") || return 2
    if [ -f "$built" ]; then
        was=$(cat "$built") || return 2
        [ "$was" = "$now
$own" ]
        return
    fi
    is_of_ci || return
    printf '%s\n%s\n' "$now" "$own" >"$built" || return 2
}
