# What bin/check-examples and bin/check-recorders share. The first word may name another program than bin/lincheck. Files go
# into a room. The exit status is 1 if something differs, and 70 if nothing can be checked.
. "${self%/*}/programs.sh"
program=${1:-$top/bin/lincheck}
room=$(mktemp -d) || fail "cannot make a folder for temporary files"
trap 'rm -rf "$room"' EXIT
# bin/lincheck may build its program first, which takes longer than a check may
"$program" --version >/dev/null || fail "cannot run $program"
wrong=0

# Says what differs from what is wanted, and counts it once, or so many times.
differs() {
    echo "differs: $1" >&2
    wrong=$((wrong + ${2:-1}))
}
