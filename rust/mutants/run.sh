#!/usr/bin/env bash
# Builds each wrong variant of mutants/list.txt as a stand-in for the static
# library and sees that `compare` finds a difference; the right one must pass.
#
#   mutants/run.sh [WORDS]   all of them, or those whose name has WORDS in it
set -euo pipefail
cd "$(dirname "$0")/.."
words=${1-}
work=$PWD/target/mutants
mkdir -p "$work"

fresh() {
    rm -rf "$work/second" "$work/standin"
    cp -r second standin "$work/"
    printf '[workspace]\nresolver = "3"\nmembers = ["second", "standin"]\n\n' >"$work/Cargo.toml"
    sed -n '/^\[workspace.package\]/,/^$/p' Cargo.toml >>"$work/Cargo.toml"
    # Another name, so that its symbols are its own.
    sed -i 's/^name = "second"/name = "suspect"/' "$work/second/Cargo.toml"
    sed -i 's|path = "../second"|path = "../second", package = "suspect"|' "$work/standin/Cargo.toml"
}

# Puts a text for a line of a file that has it once or more; every one is changed.
change() {
    local file=$1 old=$2 new=$3 text
    text=$(<"$file")
    case $text in
    *"$old"*) printf '%s\n' "${text//"$old"/"$new"}" >"$file" ;;
    *) echo "not in $file: $old" && exit 2 ;;
    esac
}

# Says what compare says: 0 no difference, 1 a difference, 2 not built.
try() {
    cargo build -q --release --manifest-path "$work/Cargo.toml" --target-dir "$work/target" \
        -p standin >"$work/log" 2>&1 || return 2
    MIRGUNETH_LIB=$work/target/release cargo build -q --release -p compare \
        --target-dir "$work/compare" >>"$work/log" 2>&1 || return 2
    "$work/compare/release/compare" >"$work/log" 2>&1 || return 1
}

total=0 missed=0
verdict() {
    local name=$1 status=0
    try || status=$?
    total=$((total + 1))
    case $status in
    1) echo "caught: $name ($(grep -m1 -E '^seed|^never met' "$work/log" || true))" ;;
    0) echo "MISSED: $name" && missed=$((missed + 1)) ;;
    *) echo "not built: $name" && cat "$work/log" && exit 2 ;;
    esac
}

fresh
try || { echo "the right one is not found right" && cat "$work/log" && exit 2; }
echo "right: no difference"

name='' file='' old=''
finish() {
    if [[ -n $name ]]; then verdict "$name"; fi
    name=''
}
while IFS= read -r line; do
    case $line in
    '= '*)
        finish
        if [[ ${line#= } == *"$words"* ]]; then name=${line#= } && fresh; fi
        ;;
    'second/'* | 'standin/'*) file=$work/$line ;;
    '- '*) old=${line#- } ;;
    '+ '*) if [[ -n $name ]]; then change "$file" "$old" "${line#+ }"; fi ;;
    esac
done <mutants/list.txt
finish
echo "$total variants, $missed missed"
[[ $missed -eq 0 ]]
