# What ./demo, ./test, ./bench, ./compare and ./replay share, which source it at the repository's root: what they say when
# they can't run, and how the library and the two programs are proved and built.
# shellcheck shell=bash
me=$(basename "$0")
exported=unmavreth_c # the crate of the calls that a host links
library=target/staticlib/libunmavreth.a
replay=target/bin/replay
show_chain=target/bin/show_chain

# stop WORDS: says why the command does not run.
stop() {
    echo "$me: $*" >&2
    exit 2
}

# unknown WORD: there is no such word for this command.
unknown() {
    stop "unknown word '$1': ./$me --help says what there is"
}

# need TOOL WHY: a tool that must be on the PATH.
need() {
    command -v "$1" >/dev/null || stop "no '$1' on the PATH: $2"
}

need_kit() {
    need rt "the Rattle kit proves and builds ($(cat KIT))"
}

need_compiler() {
    local words
    read -ra words <<<"${CC:-cc}"
    need "${words[0]}" "a C compiler is needed (CC names another)"
}

need_cargo() {
    need cargo "Rust's cargo builds what is compared and measured with the library"
}

# file_of NAME: what rt builds from the crate NAME, in its folder: the archive of the calls, or the program.
file_of() {
    if [[ $1 == "$exported" ]]; then
        echo "crates/$1/out/lib$1.a"
    else
        echo "crates/$1/out/$1"
    fi
}

# crates_under NAME...: these crates and all that they are built on, in the order in which they are proved: by levels,
# and these last.
crates_under() {
    awk -v names="$*" '
        function visit(crate, used, i, n, level) {
            if (crate in done) return done[crate]
            n = split(uses[crate], used, " ")
            for (i = 1; i <= n; i++)
                if (used[i] in uses && visit(used[i]) >= level) level = done[used[i]] + 1
            rank = crate in last ? 1000 : level + 0
            print rank, crate
            return done[crate] = level + 0
        }
        { sub(/#.*/, "") }
        split($0, part, ":") > 1 { split(part[1], head, " "); uses[head[1]] = part[2] }
        END {
            count = split(names, named, " ")
            for (i = 1; i <= count; i++) last[named[i]]
            for (i = 1; i <= count; i++) visit(named[i])
        }' crates.txt | sort -s -n -k1,1 | cut -d' ' -f2
}

# files_of NAME: every file that the crate and what it is built on are proved and run from.
files_of() {
    local -a crates folders
    mapfile -t crates < <(crates_under "$1")
    mapfile -t folders < <(find "${crates[@]/#/crates/}" -mindepth 1 -maxdepth 1 ! -name must-fail ! -name out)
    find "${folders[@]}" -type f | sort
}

# sum_of NAME: one sum over these files, the lines of crates.txt and the kit.
sum_of() {
    {
        rt version 2>/dev/null || cat KIT
        crates_under "$1" | awk 'NR == FNR { wanted[$1]; next } { name = $1; sub(/:.*/, "", name) } name in wanted' - crates.txt
        files_of "$1" | xargs sha256sum
    } | sha256sum
}

# is_built NAME SUM: whether what rt builds from the crate was built from the files as they are, whose sum is given. The
# sum was noted behind the building.
is_built() {
    local built noted=target/built/$1
    built=$(file_of "$1")
    [[ -e $built && -e $noted && ! $built -nt $noted && $(cat "$noted") == "$2" ]]
}

# say_progress WORDS: on a terminal in the place of what was said before.
say_progress() {
    if [[ -t 2 && ${TERM-dumb} != dumb && -z ${verbose-} ]]; then
        printf '\r\033[K%s' "${1:+$me: $1}" >&2
    elif [[ -n $1 ]]; then
        echo "$me: $1" >&2
    fi
}

# follow LOG: reads what rt says, keeps it in LOG, and says which crate is being proved.
follow() {
    local line
    while IFS= read -r line; do
        echo "$line" >&3
        [[ -z ${verbose-} ]] || echo "$line" >&2
        [[ ! $line =~ ^rt:\ chose\ --jobs\ [0-9]+\ for\ ([a-z0-9_]+)$ ]] || say_progress "proving ${BASH_REMATCH[1]}"
    done 3>"$1"
    say_progress ''
}

# build WHAT NAME COMMAND: has rt prove and build WHAT from the crate NAME, by COMMAND in its folder, unless it was built
# from the files as they are.
build() {
    local what=$1 name=$2 log=target/log/$me-$2.txt sum
    shift 2
    sum=$(sum_of "$name")
    ! is_built "$name" "$sum" || return 0
    need_kit
    mkdir -p target/log target/built
    echo "$me: proving what changed in the $(crates_under "$name" | wc -l) crates of $what (from nothing, some minutes)" >&2
    if ! (cd "crates/$name" && "$@") </dev/null 2>&1 | follow "$log"; then
        sed -n "s/^rt: the library \([a-z0-9_]*\) did not build.*/$me: the crate \1 is not proved/p" "$log" >&2
        stop "$what could not be built: $log has what the prover said, --verbose shows it"
    fi
    echo "$sum" >"target/built/$name"
}

# The archive that a host links: the kit's, with unwind tables, under the name that a host looks for.
build_library() {
    local archive file
    build "the library" "$exported" rt lib
    archive=$(file_of "$exported")
    for file in "$archive" host/unwind/tables.awk host/unwind/add; do
        if [[ ! -e $library || $file -nt $library ]]; then
            mkdir -p "${library%/*}"
            host/unwind/add "$library" "$archive" || stop "the archive could not be made"
            return
        fi
    done
}

# build_program WHAT NAME FILE: the program of the crate NAME, put at FILE. Building it runs it, on no input.
build_program() {
    build "$1" "$2" rt run
    if [[ ! -e $3 || $(file_of "$2") -nt $3 ]]; then
        mkdir -p "${3%/*}"
        cp "$(file_of "$2")" "$3" || stop "$1 could not be put at $3"
    fi
}

build_replay() {
    build_program "the replay" replay "$replay"
}

build_show_chain() {
    build_program "the program that shows chains" show_chain "$show_chain"
}
