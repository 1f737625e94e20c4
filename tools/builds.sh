# Read by ../mhlink, ../prove and ../.ci/run, with $here the top of the repository.
say() { echo "mhlink: $*" >&2; }

rt=$(command -v rt) || {
    say "rt, the command of the Rattle kit, is not on the path"
    return 1
}
kit=$(readlink -f "$rt")
kit=${kit%/*/*}
proved=$here/crates/mhlink/out/mhlink
seen=$here/out/sources

# The folders of a crate, the program's by default, and of each crate below it, one a line.
crates_below() {
    awk -F: -v top="${1:-mhlink}" '
        function name_all(crate,   its, i, n) {
            if (!(crate in uses) || seen[crate]++) return
            print "crates/" crate
            n = split(uses[crate], its, " ")
            for (i = 1; i <= n; i++) name_all(its[i])
        }
        { sub(/#.*/, "") }
        NF == 2 { split($1, words, " "); uses[words[1]] = $2 }
        END { name_all(top) }' "$here/crates.txt"
}

# One sum of the kit, of crates.txt, and of all that a crate, the program's by default, and its proofs are made from.
sources() (
    cd "$here" || exit
    find $(crates_below "${1:-mhlink}") -name out -prune -o \( -name '*.rt' -o -name '*.antt' \) -exec sha256sum {} + |
        LC_ALL=C sort -k 2 | cat "$kit/KIT-ID" crates.txt - | sha256sum | cut -c1-64
)

# The files and folders whose changes change the sum, and the program that was proved, each ended by a zero byte.
paths() (
    cd "$here" || exit
    printf '%s\0' "$kit/KIT-ID" crates.txt crates
    find $(crates_below) -name out -prune -o \( -type d -o -name '*.rt' -o -name '*.antt' \) -print0
    [ ! -e "$proved" ] || printf '%s\0' "$proved"
)

# Sets $sum to the sum of the sources and $built to that of the program that was proved, or to a dash where there is none.
#
# Where nothing has changed since they were last summed, nothing is summed. What tells is the time at which the state of a
# file last changed (find -cnewer), which no program can set back as it can the time of the contents (touch, cp -p, tar);
# that of a folder changes when something in it is added, removed or renamed. What was seen is dated two seconds before the
# sums began, so that a change that came while they were made is newer, also where times are whole seconds. Only a clock
# that is set back by hand could hide a change.
find_sums() {
    if read -r sum built kit_seen 2>/dev/null <"$seen/last" && read -r kit_now <"$kit/KIT-ID" && [ "$kit_seen" = "$kit_now" ] &&
        changed=$(cd "$here" && find -L -files0-from "$seen/$sum" -prune -cnewer "$seen/last" -print -quit 2>/dev/null) &&
        [ -z "$changed" ]; then
        return
    fi
    began=$(date +%s)
    sum=$(sources)
    built=$(sum_of_program)
    keep_sums 2>/dev/null || true
}

sum_of_program() {
    if [ -x "$proved" ]; then sha256sum <"$proved" | cut -c1-64; else echo -; fi
}

# Keeps the sums for the next start, with the paths that they are of under a name of their own, so that two starts at once
# do not mix theirs. Where nothing can be written, nothing is kept.
keep_sums() {
    mkdir -p "$seen" && paths >"$seen/$sum.$$" && mv "$seen/$sum.$$" "$seen/$sum" &&
        read -r kit_now <"$kit/KIT-ID" && echo "$sum $built $kit_now" >"$seen/last.$$" &&
        touch -d "@$((began - 2))" "$seen/last.$$" && mv "$seen/last.$$" "$seen/last" &&
        find "$seen" -type f ! -name last ! -name "$sum" -mmin +1 -delete
}

# Whether the program that stands there is the one that was marked, and no source has changed since it was proved. Sets $sum.
is_proved() {
    find_sums
    [ "$built" != - ] && read -r marked program 2>/dev/null <"$here/out/proved" && [ "$marked $program" = "$sum $built" ]
}

# Marks the program that was proved and built from sources of this sum, which was taken before: none has changed meanwhile.
mark_proved() {
    [ "$1" = "$(sources)" ] || {
        say "a source was edited during the proof: prove again"
        return 1
    }
    mkdir -p "$here/out" && echo "$1 $(sum_of_program)" >"$here/out/proved"
}
