#!/usr/bin/env bash
# What tools/archives and tools/programs share, which source it: what is made of the crates by rt stands below target/, with the sums of all that it
# was made of, and is not made again where these are the same.
#   $0 takes no argument but -h
set -euo pipefail

me=${0##*/}
case "$*" in
    "") ;;
    -h | --help) sed -n '2,/^[^#]/s/^# \{0,1\}//p' "$0"; exit 0 ;;
    *) echo "$me: no argument '$*'; usage: tools/$me [-h]" >&2; exit 2 ;;
esac
cd "$(dirname "$0")/.."
command -v rt > /dev/null || { echo "$me: rt, the Rattle toolchain, is not installed" >&2; exit 2; }
log=target/$me.log

# The toolchain, the crates, and what was made of them, so that one that was made otherwise is noticed.
#   standing FILE...
standing() {
    rt version
    find crates \( -name must-fail -o -name out \) -prune -o -type f -print0 | sort -z | xargs -0 sha256sum
    sha256sum crates.txt "$@"
}

# Whether these files stand as they were made last.
#   stands FILE...
stands() {
    [ -f "target/$me.made-from" ] && standing "$@" 2> /dev/null | cmp -s - "target/$me.made-from"
}

# Keeps that these files were made.
#   made FILE...
made() {
    standing "$@" > "target/$me.made-from.new"
    mv "target/$me.made-from.new" "target/$me.made-from"
}

# Forgets what was made, before it is made again.
begin() {
    mkdir -p target
    rm -f "target/$me.made-from"
    : > "$log"
}

failed() {
    echo "$me: not made; $log has all that the prover says" >&2
    exit 1
}

# An rt command in a crate's folder: a line for each crate that is proved, as soon as rt tells of it. All that it says goes to the log.
#   of_crate CRATE WORD...
of_crate() {
    local crate=$1
    shift
    (cd "crates/$crate" && rt "$@" < /dev/null 2>&1) | tee -a "$log" | sed -u -n \
        -e '/^crate [a-z0-9_]*: /{s/^crate \([a-z0-9_]*\): .*/\1/;h}' \
        -e '/^logic=/{s/^logic=proved .*/ proved/;s/^logic=.*/ NOT PROVED/;H;x;s/\n//p}' || failed
}
