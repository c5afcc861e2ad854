# What ./pytest_run and ./try_run ask of the crates of the program. Both source it, in bash.
top=$(dirname "$(readlink -f "${BASH_SOURCE[0]}")")
proved=$top/crates/pytest_run/out/pytest_run
command=${0##*/}

declare -A listed=() # the lines of crates.txt by their crates
declare -A below=()  # of each crate of the program: those that it stands on
order=()             # the crates of the program, lowest first

read_crates() {
    local head libraries
    while IFS=: read -r head libraries; do
        [[ -z $head || $head == '#'* ]] || listed[${head%% *}]=$libraries
    done <"$top/crates.txt"
}

visit() {
    local crate=$1 low
    [ -z "${below[$crate]+set}" ] || return 0
    below[$crate]=
    for low in ${listed[$crate]}; do
        [ -n "${listed[$low]+set}" ] || continue
        visit "$low"
        below[$crate]+=" $low"
    done
    order+=("$crate")
}

# Whether an executable isn't there, or is older than a file that it is made of.
is_stale() {
    [ ! -x "$1" ] || [ "$top/crates.txt" -nt "$1" ] ||
        [ -n "$(cd "$top/crates" && find "${order[@]}" -name out -prune -o \( -name '*.rt' -o -name '*.antt' \) -newer "$1" -print -quit)" ]
}

has_toolchain() {
    command -v rt >/dev/null || { say "no command rt: the Rattle toolchain is not installed"; return 1; }
}

say() {
    echo "$command: $*" >&2
}

minutes() {
    printf '%d:%02d' $(($1 / 60)) $(($1 % 60))
}

read_crates
visit pytest_run
