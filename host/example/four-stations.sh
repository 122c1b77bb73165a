#!/usr/bin/env bash
# Four stations and an observer keep one register: each station files an entry, what it says goes to the others through
# pipes, and the five registers are compared. `host/example/four-stations.sh --help` says more.
set -eu -o pipefail

usage() {
    cat <<'END'
usage: host/example/four-stations.sh [--proved] [--weights=W,W,W,W] [FOLDER]

Four stations file an entry each, agree on the order, and an observer follows them. Shows every move and then all five
registers. The books are kept in FOLDER, which is made and must be new; without it nothing stays.

  --proved           on the proved replica, and not on the reference; needs the static library (docs/PARTNERS.md)
  --weights=W,W,W,W  what each station weighs, 1 to 1000; 1,1,1,1 where it is not given. Try 10,1,1,1: a large partner
                     and three small ones

The command `mavunilai` is built first, with cargo, unless the variable MAVUNILAI names one that is ready.
Status 0: the same entries in all registers; 1: not so; 2: bad usage, or no command; 3: weights out of range.
END
}

say() { printf 'four-stations: %s\n' "$2" >&2; exit "$1"; }

folder='' features='' weights=1,1,1,1
for word in "$@"; do
    case $word in
    --help | -h) usage; exit 0 ;;
    --proved) features=proved ;;
    --weights=*) weights=${word#--weights=} ;;
    -*) say 2 "no option '$word'; see --help" ;;
    *) [ -z "$folder" ] || say 2 "one FOLDER, not two: '$folder' and '$word'"; folder=$word ;;
    esac
done

host=$(cd "$(dirname "$0")/.." && pwd -P)
if [ -z "${MAVUNILAI:-}" ]; then
    cargo build --quiet --offline --manifest-path "$host/Cargo.toml" --target-dir "$host/target" -p cli \
        ${features:+--features "$features"} >&2 || say 2 "the command cannot be built"
    MAVUNILAI=$host/target/debug/mavunilai
fi
MAVUNILAI=$(realpath -e "$MAVUNILAI") || say 2 "MAVUNILAI names no command"
mavunilai() { "$MAVUNILAI" "$@"; }

if [ -n "$folder" ]; then
    mkdir "$folder" || say 2 "$folder must be a new folder"
else
    folder=$(mktemp -d)
    trap 'rm -rf "$folder"' EXIT
fi
cd "$folder"

# Hands what station $1 printed, answers and frames, to the other three, and shows its moves.
hand_on() {
    said=$(cat)
    for other in 0 1 2 3; do
        [ "$other" = "$1" ] || printf '%s\n' "$said" | mavunilai call "station$other" deliver - > /dev/null
    done
    printf '%s\n' "$said" | sed '/^[0-9a-f]*$/d; /^idle$/d' | paste -sd, | sed "s/^./station $1: &/; s/,/, /g; /^$/d"
}

# ---- a season of four heights, each led by another station
mavunilai --version
entries=("swap A12 to B40" "seed lot 7 to 3" "undo A12 to B40" "plot C7 fallow")
for station in 0 1 2 3; do
    mavunilai open "station$station" --n 4 --own "$station" --weights "$weights" --roll 0,1,2,3
    mavunilai call "station$station" submit "${entries[station]}" > /dev/null
    echo "station $station files: ${entries[station]}"
done
mavunilai observer watch open --n 4 --heights 4 --weights "$weights"

# ---- round and round until nobody has anything to say
echo begun > moves
while [ -s moves ]; do
    for station in 0 1 2 3; do
        mavunilai call "station$station" run | hand_on "$station"
    done > moves
    cat moves
done

# ---- the observer gets all certificates of a station, after the last height is settled there
mavunilai call station3 certificates | mavunilai observer watch deliver - > /dev/null
echo "observer: $(mavunilai observer watch move)"

# ---- five registers
for station in 0 1 2 3; do
    mavunilai call "station$station" read > "register$station"
done
mavunilai observer watch read > register4
echo "The register of station 0:"
sed -n 's/.*"\(.*[^ ]\) *".*/  \1/p' register0 | tee entries
[ "$(cat entries)" = "$(printf '  %s\n' "${entries[@]}")" ] || say 1 "these are not the entries that were filed"
for other in 1 2 3 4; do
    cmp -s register0 "register$other" || say 1 "register$other differs"
done
echo "The registers of stations 1, 2 and 3 and of the observer are the same."
