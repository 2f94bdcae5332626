# What the scripts of this folder share. One that fails ends by `fail`, since 0 to 4 are the program's statuses.
#
# `self` is the script that reads this file, and `top` the repository, whatever link, folder or CDPATH it was called by.
unset CDPATH
# where standard error is closed, bash reads the script in its place
true >&2 && [ ! /dev/fd/2 -ef "$self" ] || exec 2>/dev/null
top=${self%/bin/*}
proved=$top/crates/lincheck_program/out/lincheck_program
tried=$top/out/lincheck_tried
[ -d "$top/crates" ] || proved=$top/libexec/lincheck # in a release, which has no sources

# Ends with these words.
fail() {
    echo "${self##*/}: $1" >&2
    exit 70
}

# Whether the program is there and runs, and none of the files named has changed since it was built. A folder is newer once a file
# in it was added or removed.
is_current() {
    local program=$1 newer
    shift
    [ -f "$program" ] && runs "$program" || return 1
    newer=$(find "$@" -newer "$program" -print -quit) || fail "cannot tell whether $program was built from these sources: find failed"
    [ -z "$newer" ]
}

# Whether a file is a program: bash takes an empty file for a script that does nothing, and a file may end too soon.
runs() {
    [[ "$("$1" --version 2>/dev/null </dev/null)" == "lincheck "* ]]
}

# Whether the proved program is there, built from these sources.
is_proved() {
    [ -d "$top/crates" ] || return 0
    is_current "$proved" "$top/crates.txt" "$top"/crates/*/src "$top"/crates/*/specs "$top"/crates/*/proofs
}

# Whether the unproved build is there, of these sources.
is_tried() {
    is_current "$tried" "$top/crates.txt" "$top"/crates/*/src "$top/bin/build_unproved.py"
}

# Ends if there is no toolchain.
require_toolchain() {
    command -v rt >/dev/null && return
    fail "there is no program yet, and it cannot be built: the Rattle toolchain is not on this machine (no folder of the PATH has its command rt)"
}

# Becomes this program.
become() {
    shopt -s execfail
    exec "$@"
    fail "cannot run $1: remove it, and it will be built again"
}

# Opens a room: a folder for all that a build makes. It waits until no other run of this script has one. However the script
# ends, even killed, the room is removed then, and what runs in it ends.
open_room() {
    room=$top/out/${self##*/}_room
    command -v flock >/dev/null || fail "there is no program yet, and it cannot be built: the command flock is not on this machine"
    exec {lock}<"$self" || fail "cannot read $self"
    if ! flock -n "$lock"; then
        echo "lincheck: another ${self##*/} is building; waiting for it .." >&2
        flock "$lock" || fail "cannot wait for the other build: flock failed"
    fi
    # a group of its own, so that what ends this script does not end it
    exec {lifeline}> >(set -m; remove_after <&0 >/dev/null 2>&1 &)
    # there may be a room where all was killed that could remove it
    rm -rf "$room" && mkdir -p "$room" && : >"$room/started" || fail "cannot write to $room"
}

# Removes the room once this script, which alone has the other end of standard input, has closed it or is gone. The lines read
# there say which group of processes runs in the room.
remove_after() {
    local line group=
    trap '' HUP INT TERM
    while read -r line; do group=$line; done
    if [ -n "$group" ] && kill -TERM -- "-$group"; then
        sleep 1
        kill -KILL -- "-$group"
    fi
    for _ in 1 2 3; do
        rm -rf "$room" && return
        sleep 1
    done
}

# Runs a command in the room, as a group of its own. What it says is in the room's log.
run_in_room() {
    local status
    set -m
    run_announced "$@" </dev/null >"$room/log" 2>&1 &
    set +m
    wait "$!"
    status=$?
    echo >&"$lifeline"
    return "$status"
}

# Runs a command after its group was told, so that it never runs untold.
run_announced() {
    echo "$BASHPID" >&"$lifeline"
    exec {lifeline}>&-
    "$@"
}

# Closes the room.
close_room() {
    exec {lifeline}>&- {lock}<&-
}

# Ends with the last lines of the room's log and these words.
fail_in_room() {
    tail -n 20 "$room/log" >&2
    fail "$1"
}
