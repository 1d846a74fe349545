# To be sourced, in the repository's folder.

# Two builds at once would do the same work twice, so each takes this lock first. It goes with file descriptor 9.
take_lock() {
    if ! command -v flock > /dev/null; then
        echo "flock is not found: see that no other build runs in this folder" >&2
        return 0
    fi
    exec 9< crates.txt || return
    until flock -w 10 9; do
        [ $? -eq 1 ] || return # 1: the ten seconds are over
        echo "waiting for another build in this folder ($SECONDS s)" >&2
    done
}

# Runs a command that may be silent for long, and says on standard error every so many seconds that it goes on. It has the command's status.
with_clock() { # SECONDS WHAT COMMAND...
    local every=$1 what=$2 status=0 clock began=$SECONDS
    shift 2
    while sleep "$every" > /dev/null 2>&1 && kill -0 $$ 2> /dev/null; do echo "$what: $((SECONDS - began)) s so far" >&2; done > /dev/null &
    clock=$!
    "$@" || status=$?
    kill "$clock" 2> /dev/null || :
    wait "$clock" 2> /dev/null || :
    return "$status"
}
