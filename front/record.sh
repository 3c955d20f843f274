# Whether a built program is of the sources as they stand. ../nkrun, build, write_seconds and ../.ci/run read these functions,
# and have set top, the checkout.
#
# A program's sources are crates.txt, and src/ and specs/ of the crates that it stands on. Proofs, tests and edits aren't
# among them: what was built was proved with those of its time, and no change of them makes another program of it.
#
# What it was built of stands beside it in out/, in three files:
#   NAME.folders   the folders of its sources, on one line, so that a run needn't look into crates.txt
#   NAME.sums      SHA-256 of each source, from before the proof began, and of the program
#   NAME.listing   name, size and times of each of these files, from a moment when they had those sums
# A run compares the listing, and the sums only where it differs, or where find has no -printf and there is none.
# shellcheck shell=sh disable=SC2154

use_program() { # NAME
        name=$1
        program=$top/crates/$name/out/$name
}

# Reads which folders the program was built of; there are none where it was never recorded.
read_folders() {
        { read -r folders <"$program.folders"; } 2>/dev/null && [ -n "$folders" ]
}

# Those of crates.txt as it stands. A folder that isn't there is listed too, so that it is seen when it comes.
find_folders() {
        folders=$(awk -F: -v top="$name" '/^[a-z]/ { split($1, head, " "); uses[head[1]] = $2 }
                function reach(crate, names, i) {
                        if (!(crate in uses) || crate in reached) return
                        reached[crate] = 1
                        printf "crates/%s/src crates/%s/specs ", crate, crate
                        for (i = split(uses[crate], names, " "); i > 0; i--) reach(names[i])
                }
                END { reach(top) }' "$top/crates.txt")
}

# In a folder that isn't there find does all else, and what it says of it is not wanted. Folders are words without blanks.
list_files() {
        # shellcheck disable=SC2086
        (cd "$top" && find crates.txt "crates/$name/out/$name" $folders ! -type d -printf '%p %s %T@ %C@\n') 2>/dev/null
}

sum_sources() {
        # shellcheck disable=SC2086
        (cd "$top" && find crates.txt $folders ! -type d -exec sha256sum {} + 2>/dev/null | LC_ALL=C sort)
}

sum_program() {
        (cd "$top" && sha256sum "crates/$name/out/$name")
}

# Keeps a listing that was taken before the sums were found right, so that a change between the two is seen later. A
# checkout that can't be written has none, and each run compares the sums.
keep_listing() { # LISTING
        [ -n "$1" ] || return
        { printf '%s\n' "$1" >"$program.listing.$$" && mv -f "$program.listing.$$" "$program.listing"; } 2>/dev/null
}

is_fresh() {
        [ -x "$program" ] && [ -s "$program.sums" ] && read_folders || return 1
        ! list_files | cmp -s - "$program.listing" 2>/dev/null || return 0
        listing=$(list_files)
        { sum_sources && sum_program; } | cmp -s - "$program.sums" || return 1
        keep_listing "$listing"
        return 0
}

# Before a proof: keeps the sums of the sources that it is going to read.
begin_record() { # FILE
        find_folders && sum_sources >"$1"
}

# After the build: the program is of the sources of that time, so it is stale at once where they changed since.
end_record() { # FILE
        find_folders
        rm -f "$program.listing"
        echo "$folders" >"$program.folders" && { cat "$1" && sum_program; } >"$program.sums"
}
