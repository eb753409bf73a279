# What ilocfarm, build and package share. They may be started anywhere, also by links, and work at the top of the
# repository; $here is where they were started.
say() {
    echo "ilocfarm: $*" >&2
}

fail() {
    say "$*"
    exit 125
}

# Lists what the program is made from, and the program: the toolchain's command, and of each file its name, device,
# inode, size and time of change, which no tool sets back.
made_from() {
    kit=${rt%/bin/*}/KIT-ID
    echo "$rt"
    [ -f "$kit" ] || "$rt" version
    find "$kit" crates.txt HANDLES crates/*/src crates/*/specs crates/*/proofs out/ilocfarm \
        -type f -printf '%p %D %i %s %C@\n' 2>/dev/null
}

# Whether all is as it was when the program was built; where rt isn't on the PATH, with the toolchain of then.
is_built() {
    [ -f out/built ] || return
    [ -n "$rt" ] || read -r rt <out/built
    made_from | cmp -s - out/built
}

# Says why the program that was built isn't run.
say_why() {
    [ -f out/built ] || return 0
    made_from | awk '
        FNR == NR { was[$1] = $0; next }
        was[$1] == $0 { same += $1 ~ /^crates/ }
        was[$1] != $0 && !changed { changed = $1 }
        { delete was[$1] }
        END {
            for (name in was) if (!changed) changed = name
            if (changed !~ /^(crates|HANDLES|out)/) changed = "the toolchain"
            if (same) print changed " isn\047t as it was when the program was built"
            else print "this is a copy: only where the program was built is it known to match the sources"
        }' out/built - | while read -r why; do say "$why"; done
}

# Sets $jobs, how many crates ./build proves side by side, or nothing where rt chooses, and $minutes, about how long it
# takes. rt plans for up to twice the 0.8 to 2.8 GB that a crate takes: where a processor has 2.5 GB, it may have one.
plan() {
    set -- "$(nproc)" "$(cat /proc/meminfo /sys/fs/cgroup/memory.max /sys/fs/cgroup/memory.stat 2>/dev/null | awk '
        $1 == "MemAvailable:" { free = $2 * 1024 }
        NF == 1 && $1 ~ /^[0-9]+$/ { limit = $1 }
        $1 == "anon" { held = $2 }
        END { if (limit && limit - held < free) free = limit - held; printf "%d", free / 1e8 }')"
    jobs= side_by_side=$1 short=
    if [ "$2" -lt $(($1 * 25)) ]; then
        side_by_side=$(($2 < 50 ? 1 : $2 / 50))
        short=", or $((22 + 80 / $1)) with $(($1 * 5 / 2 + 1)) GB of memory free"
    elif [ "$2" -lt $(($1 * 50)) ] && [ -z "${RT_JOBS:-}" ]; then
        jobs=$1
    fi
    minutes=$((22 + 80 / side_by_side))
}

# The lines of crates.txt for the program's crate and those below it.
program_crates() {
    awk -F '[:#]' '
        split($1, words, " ") { line[words[1]] = $0; uses[words[1]] = $2 }
        function need(name, below, k) {
            if (!(name in line) || done[name]++) return
            print line[name]
            for (k = split(uses[name], below, /[ ,]+/); k; k--) need(below[k])
        }
        END { need("ilocfarm") }' crates.txt
}

# Makes the folder $room, which is removed when the script ends.
make_room() {
    room=$(mktemp -dt ilocfarm.XXXXXX) || fail "no temporary folder can be made: free some space, or set TMPDIR"
    job=
    trap 'rm -rf "$room" 2>/dev/null || { sleep 1; rm -rf "$room"; }' EXIT
    trap stopped HUP INT TERM
}

# Waits for what was started last. That runs in the background, so that a signal is seen at once.
finish() {
    job=$!
    wait "$job"
}

stopped() {
    trap '' HUP INT TERM
    [ -z "$job" ] || { kill "$job"; wait "$job"; } 2>/dev/null
    fail "stopped. $advice"
}

top=${self%/*}
here=$PWD
rt=$(command -v rt) && rt=$(readlink -f -- "$rt")
cd -- "$top" && [ -f crates.txt ] || fail "no crates.txt in $top: start this in its repository, or by a link to it"
