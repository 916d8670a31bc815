# What the programs were made from. The front command reads this file, and so does the gate, whose `rt ci` builds the programs too; `here` is
# the top of the checkout, with a slash at its end.
programs=(plan_job check_plan replay_stops)

program_path() { printf '%s\n' "${here}crates/$1/out/$1"; }

# What rt itself makes lies in the crates' folders out/.
sources() { # WORDS for find
    find crates.txt crates -regex 'crates/[^/]*/out' -prune -o -type f \( -name '*.rt' -o -name '*.antt' -o -name crates.txt \) "$@"
}

# One number for all sources.
sources_sum() { (set -o pipefail && cd -- "$here" && sources -print0 | LC_ALL=C sort -z | xargs -0 sha256sum | sha256sum); }

# That number, and one for each program: what target/made_from holds when the programs are built.
record() { # SUM
    printf '%s\n' "$1" && for name in "${programs[@]}"; do sha256sum <"$(program_path "$name")" || return; done
}
