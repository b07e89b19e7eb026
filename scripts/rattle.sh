# How programs are built and run here, packages, and refusals in words. Sourced from the top folder.
top_folder=$PWD

# The toolchain's folder with the loader that programs run with.
toolchain() {
    rt=$(readlink -f "$(command -v rt)") && echo "${RATTLE_HOME:-$(dirname "$(dirname "$rt")")}/toolchain"
}

# Where rt puts the program of a crate.
program_of() {
    echo "crates/$1/out/$1"
}

# Whether a file is there, and nothing of the crates has changed since it was made.
is_new() {
    [ -f "$1" ] && [ -z "$(find crates crates.txt -path 'crates/*/out' -prune -o -type f -newer "$1" -print)" ]
}

# What programs run with: a copy, since a program that is built runs without the toolchain too. Each file takes its place whole, since
# another call may be starting a program, and the loader last: where it is, all are.
runtime=target/run
keep_runtime() {
    tools=$(toolchain) && mkdir -p "$runtime" || return 1
    for file in libc.so.6 ld-linux-x86-64.so.2; do
        cp "$tools/lib/$file" "$runtime/new" && mv "$runtime/new" "$runtime/$file" || return 1
    done
}

# Becomes the program of a crate, with the words after its name, from whatever folder. Where the machine is no x86-64, an emulator runs it.
exec_program() {
    runs="$top_folder/$runtime" program=$top_folder/$(program_of "$1")
    shift
    set -- "$runs/ld-linux-x86-64.so.2" --library-path "$runs" "$program" "$@"
    [ "$(uname -m)" = x86_64 ] || set -- qemu-x86_64 "$@"
    exec "$@"
}
run_program() (exec_program "$@")

# Runs a program in the background, since a shell waits for what runs before it and hears no signal in between. Its standard input is that
# of this shell, and its status the answer.
child=''
run_to_end() {
    exec 8<&0
    exec_program "$@" <&8 8<&- &
    child=$!
    exec 8<&-
    wait "$child"
    ended=$?
    child=''
    return $ended
}

# Ends the program that still runs, if one does.
end_child() {
    [ -z "$child" ] || { kill "$child" && wait "$child"; } 2>/dev/null
}

# What every program does that is asked for its usage or its version.
help_or_version() {
    case ${1-} in
    --help) usage && status=0 ;;
    --version) echo "cerantuh $(cat VERSION)" && status=0 ;;
    *) return ;;
    esac
    exit
}

# Ends what rt has started, all of it, and then the script. rt starts provers that a Ctrl-C does not reach, so it has a group of its own.
prover='' proves=''
end_prover() {
    trap '' HUP INT TERM
    [ -z "$prover" ] || kill -- "-$prover" 2>/dev/null || kill "$prover" 2>/dev/null
    wait
    put_back "$proves"
    exit 2
}

# Proves and builds a program by rt, whose whole output goes to a log; the lines in which rt speaks are shown as they come. rt runs it
# then: with no words and no input it makes no file. The shell waits, and waits alone: a signal ends a wait, and no command.
check_program() {
    : >"$2"
    proves=$1
    trap end_prover HUP INT TERM
    # shellcheck disable=SC2046,SC2016
    $(command -v setsid) sh -c 'cd "crates/$0" && exec rt run' "$1" >"$2" 2>&1 </dev/null &
    prover=$!
    tail -n +1 -s 0.5 --pid="$prover" -f "$2" | sed -un '/^rt: /p' >&2 &
    wait "$prover"
    wait
    prover=''
    trap 'end_child; exit 2' HUP INT TERM
    # its status is that of the program; rt writes the stamp where it proved and built what stands here
    [ -f "$(program_of "$1").stamp" ] && [ -x "$(program_of "$1")" ]
}

# Waits for another call that builds, and keeps later ones waiting until this one, and all that it has started, has ended.
alone() {
    command exec 9>target/building || return 1
    ! command -v flock >/dev/null || flock -n 9 || {
        echo 'Another call is proving and building; this one waits for it.' >&2
        flock 9
    }
}

# Whether a program is proved and built, is what was built then, and what it runs with is there.
is_built() {
    is_new "target/$1.done" && [ -x "$(program_of "$1")" ] && [ "$(cksum <"$(program_of "$1")")" = "$(cat "target/$1.done")" ] &&
        [ -x "$runtime/ld-linux-x86-64.so.2" ]
}

# note_built NAME BEGAN: a program was proved and built since the time of a file. What changed meanwhile is newer than the note.
note_built() {
    cksum <"$(program_of "$1")" >"target/$1.done.new" && touch -r "$2" "target/$1.done.new" && mv "target/$1.done.new" "target/$1.done"
}

# Keeps a copy of what was built before, and puts it back where nothing new was built.
keep_built() {
    rm -f "target/$1.kept"
    [ ! -x "$(program_of "$1")" ] || cp -p "$(program_of "$1")" "target/$1.kept"
}
put_back() {
    rm -f "target/$1.new"
    [ ! -f "target/$1.kept" ] || mv "target/$1.kept" "$(program_of "$1")"
}

# Proves and builds a program, from nothing where an earlier run left it half built; where that fails too, what was built before stays.
build_program() {
    began=target/$1.new log=target/$1.log
    echo "The program $1 is being proved and built: some minutes on the first call, nothing on later ones." >&2
    if ! : >"$began" || ! keep_runtime; then
        echo "${0##*/}: the toolchain's files that programs run with could not be copied to $runtime" >&2
        return 1
    fi
    keep_built "$1"
    rm -f "$(program_of "$1").stamp"
    check_program "$1" "$log" || {
        echo 'It was not built; once more, from nothing.' >&2
        rm -rf crates/*/out/rlib crates/*/out/incremental
        check_program "$1" "$log"
    } || {
        put_back "$1"
        echo "${0##*/}: the program $1 could not be proved and built; $log says why" >&2
        return 1
    }
    note_built "$1" "$began"
    rm -f "target/$1.kept" "$began"
}

# Proves and builds a program, unless that is done.
prove_program() {
    is_built "$1" && return
    if ! command -v rt >/dev/null; then
        echo "${0##*/}: the program $1 is to be proved and built; that needs the Rattle toolchain, whose command rt is not found" >&2
        return 1
    fi
    mkdir -p target && alone && { is_built "$1" || build_program "$1"; }
    built=$?
    exec 9>&-
    return $built
}

# Installs packages, where apt-get and the right to use it are there, and says so before. Parts of the gate that run side by side take
# turns: apt-get fails where another one is at work.
install_packages() {
    [ "$(id -u)" = 0 ] && command -v apt-get >/dev/null && command -v flock >/dev/null || return 1
    echo "installing by apt-get, since it is missing here: $*"
    (flock 7 && apt-get -q update && DEBIAN_FRONTEND=noninteractive apt-get -q install -y "$@") 7>/var/lock/cerantuh >/dev/null 2>&1
}

# refusal_means NUMBER PLACE: what a refusal of a search means, in words.
refusal_means() {
    case $1 in
    1) echo 'the pattern is empty' ;;
    2) echo 'the pattern has more than 64 bases' ;;
    3) echo "the byte at place $2 of the pattern, counted from 0, is no base: it is not A, C, G or T" ;;
    4) echo 'the stretch has more than 32,768 bytes' ;;
    5) echo "the stretch ends inside the count or length at place $2, counted from 0, or before the letters that this length states" ;;
    6) echo "the variant count at place $2 of the stretch, counted from 0, is 0" ;;
    7) echo "the byte at place $2 of the stretch, counted from 0, is no letter: it is not A, C, G, T or N, in upper or lower case" ;;
    8) echo "the variant whose length stands at place $2 of the stretch, counted from 0, is equal to an earlier one of its segment" ;;
    9) echo "the stretch goes on after its last segment, from place $2 on, counted from 0" ;;
    16) echo 'the stretch has more than 10,922 segments' ;;
    *) echo 'docs/FORMAT.md has the table of refusals' ;;
    esac
}
