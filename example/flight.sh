#!/usr/bin/env bash
# Lists a plan, flies a simulated aircraft along it to its end, with the metres to go at the start and at the end, and draws the flight.
#   example/flight.sh [PLAN [PICTURE]]    without them samples/fillets.wpl and target/flight.svg
# The first run proves the crates that it needs and builds the command farnkuppel; later ones take about a second. Needs the Rattle toolchain (rt),
# cargo and objcopy (binutils). Exit status: 0 drawn; 1 the plan is refused, or a crate is not proved; 2 usage or file trouble.
set -euo pipefail
root=$(cd "$(dirname "$0")/.." && pwd)

stop() {
    echo "flight.sh: $1" >&2
    exit 2
}

case ${1-} in
    -h | --help) sed -n '2,/^[^#]/s/^# \{0,1\}//p' "$0"; exit 0 ;;
    -*) stop "no option '$1'; usage: example/flight.sh [PLAN [PICTURE]]" ;;
esac
[ $# -le 2 ] || stop "'$3' is one too many; usage: example/flight.sh [PLAN [PICTURE]]"
at=$root/
if [ "$PWD" -ef "$root" ]; then at=; fi
plan=${1-${at}samples/fillets.wpl}
picture=${2-${at}target/flight.svg}
[ -n "$plan" ] || stop "'' names no plan"
[ -e "$plan" ] || stop "$plan: there is no such file"
[ ! -d "$plan" ] || stop "$plan: is a directory, and no plan"
[ -r "$plan" ] || stop "$plan: cannot be read"
mkdir -p "$root/target"
[ -n "$picture" ] || stop "'' names no picture"
[ ! -d "$picture" ] || stop "$picture: is a directory, and no picture"
[ ! -e "$picture" ] || [ -f "$picture" ] || stop "$picture: is no regular file"
folder=$(dirname -- "$picture")
[ -d "$folder" ] || stop "$picture: its folder is not there"
[ -w "$folder" ] || stop "$picture: its folder cannot be written to"
for made in "$picture" "$root/target/flight.fixes" "$root/target/flight.txt"; do
    [ ! "$made" -ef "$plan" ] || stop "$made: is the plan, and is not written over"
done
for tool in rt cargo objcopy; do
    command -v "$tool" > /dev/null || stop "$tool is not installed"
done

farnkuppel=$root/host/target/release/farnkuppel
if [ -x "$farnkuppel" ]; then
    echo "flight.sh: a second, and more where something has changed since the last run"
else
    echo "flight.sh: the first run proves and builds what it needs, some minutes; later ones take a second"
fi
"$root/tools/archives"
[ -x "$farnkuppel" ] || echo "flight.sh: building the command farnkuppel, some seconds"
cargo build --manifest-path "$root/host/Cargo.toml" --offline --release --quiet -p farnkuppel || stop "the command farnkuppel could not be built"

"$farnkuppel" list -- "$plan"
left=$("$farnkuppel" distance -- "$plan")

# When, and the index that the aircraft has then.
to_go() {
    echo "to go $1, on the leg to point $2: $(sed -n "s/^$2 //p" <<< "$left") m from the start of that leg to the last point"
}

fixes=${at}target/flight.fixes
flown=${at}target/flight.txt
"$farnkuppel" simulate -- "$plan" "$fixes"
"$farnkuppel" fly -- "$plan" "$fixes" > "$flown"
to_go "at the start" 2
head -n 4 "$flown"
echo ...
tail -n 2 "$flown"
to_go "at the end" "$(sed -n '$s/.* index \([0-9]*\) phase .*/\1/p' "$flown")"
"$farnkuppel" draw -- "$plan" "$fixes" "$picture"
echo "the command is ${at}host/target/release/farnkuppel; its --help says what else it does"
