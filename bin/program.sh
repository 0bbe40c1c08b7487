# What bin/compare and bin/check have in common, which read it with `called`, the program's name, and `crate`, where it stands: asks the
# program the question in a file, and has the kit prove and build it where its sources have changed. `usage` prints the help, and
# `ended_as WORD` ends with the status for the answer's first word.

fail() {
    printf '%s: %s\n' "$called" "$*" >&2
    exit 4
}

made_of() { # a checksum of what the program is made of: the kit and every file of the crates
    (cd "$root" && rt version && sha256sum crates.txt &&
        find crates -type f -not -path '*/must-fail/*' -not -path '*/out/*' -exec sha256sum {} + | LC_ALL=C sort) | sha256sum
}

built() { # whether the program is there, and is the one that was made of these sources
    local sources
    sources=$(made_of) || return
    [ -x "$program" ] && [ "$sources $(sha256sum <"$program")" = "$(cat "$stamp" 2>/dev/null)" ]
}

build() { # has the kit prove and build the program, and keeps what of, unless a source was changed meanwhile
    local sources
    sources=$(made_of) || fail 'the crates of this repository cannot be read'
    echo "$called: proving and building what has changed (some minutes in a new clone)" >&2
    if ! "$root/bin/build" "$crate" >"$held/log" 2>&1; then
        cat "$held/log" >&2
        fail 'it is not proved, and so not asked'
    fi
    if [ "$sources" = "$(made_of)" ]; then echo "$sources $(sha256sum <"$program")" >"$stamp"; fi
}

case ${1-} in
--help | -h)
    usage 2>/dev/null || fail 'the answer could not be written'
    exit 0
    ;;
--) shift ;;
-?*) fail "there is no option $1 (a file of that name is ./$1); --help says more" ;;
esac
[ $# -le 1 ] || fail "one file at a time, and here are $#; --help says more"
file=${1--}
[ "$file" = - ] || [ -e "$file" ] || fail "there is no file '$file'"
[ "$file" = - ] || [ ! -d "$file" ] || fail "'$file' is a directory"
[ "$file" != - ] || [ -e /dev/fd/0 ] || fail 'there is no standard input'

# The question is held before anything is built. An endless input is cut far beyond what the program takes in.
held=$(mktemp -d) || fail 'there is no room for temporary files'
trap 'rm -rf "$held"' EXIT
why=$(head -c 1000000 -- "$file" 2>&1 >"$held/question") || fail "the question cannot be read (${why#head: })"

root=$(cd "$(dirname "$(readlink -f "${BASH_SOURCE[0]}")")/.." && pwd)
program=$root/target/bin/$called
stamp=$program.made-of
command -v rt >/dev/null || fail "the kit (rt) is not on this machine; a program that is built, $program, runs without it"
if ! built; then
    mkdir -p "$root/target"
    { flock 9 && { built || build; }; } 9>"$root/target/$called.lock" || fail 'the program cannot be built here'
fi

"$program" <"$held/question" | tee "$held/answer" 2>/dev/null
ended=("${PIPESTATUS[@]}")
[ "${ended[1]}" -eq 0 ] || fail 'the answer could not be written'
[ "${ended[0]}" -eq 0 ] || fail "the program ended with status ${ended[0]}"
read -r answer _ <"$held/answer"
ended_as "$answer"
fail 'the program gave no answer'
