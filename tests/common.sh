# Read by the scripts of tests/ and bench/, which stand in the root of the repository.
# Everything that they build is under target/. Scripts may run at the same time: a lock is held while rt builds.

die() {
    echo "$*"
    exit 1
}

# The level at which the second simulator is compared: how many requests of document 02 have landed. It stands in tests/level, and nowhere else.
level=$(cat tests/level)
[[ $level =~ ^[0-9]+$ ]] || die "tests/level has no level of the second simulator, but '$level'"

# The Python tests read modules of tests/, and nothing is written beside these.
export PYTHONDONTWRITEBYTECODE=1

# need COMMAND WHY: the script goes no further without it.
need() {
    command -v "$1" > /dev/null || die "no command '$1' on this machine: $2"
}

# need_package COMMAND PACKAGE..: where COMMAND is missing, these packages of Debian are installed, if that may be done here.
need_package() {
    local command=$1
    shift
    command -v "$command" > /dev/null && return
    { [ "$(id -u)" = 0 ] && command -v apt-get > /dev/null; } || die "no command '$command' on this machine; on Debian: apt-get install $*"
    echo "apt-get install $*"
    mkdir -p target
    { apt-get update && DEBIAN_FRONTEND=noninteractive apt-get install -y --no-install-recommends "$@"; } > "target/apt-$command.log" 2>&1
    command -v "$command" > /dev/null || { tail -n 5 "target/apt-$command.log"; die "no command '$command' on this machine, and apt-get could not install $*"; }
}

# The archives that rt writes, and the programs, are for x86-64.
need_x86_64() {
    [ "$(uname -m)" = x86_64 ] || die "this test runs code of the library, which is for x86-64; this machine is $(uname -m)"
}

# header_figure NAME: the figure that include/dispatcher.h has for DISPATCHER_NAME.
header_figure() {
    sed -nE "s/^#define DISPATCHER_$1 ([0-9]+)u?( .*)?$/\1/p" include/dispatcher.h
}

# copies_outside: $outside is a folder outside of the tree, removed when the script ends. What has sources of Rattle or links stands there, since `rt ci` refuses
# both in every folder of the tree but the crates' own.
copies_outside() {
    outside=$(mktemp -d) || die "no temporary folder"
    trap 'rm -rf "$outside"' EXIT
}

# newer_than_sources FILE: FILE is there and no source of a crate was changed after it was made.
newer_than_sources() {
    [ -e "$1" ] && [ -z "$(find crates.txt crates/*/{src,specs,proofs} -newer "$1" -print -quit 2> /dev/null)" ]
}

# made_by_rt FILE VERB CRATE MADE FLAG..: FILE, a copy of the crate's out/MADE, which `rt VERB FLAG ..` proves and writes there. It is made anew if a source is newer. What a
# passed `rt ci` has left in out/ is taken as it is: it is linked once all is proved.
made_by_rt() {
    local folder=crates/$3 made=crates/$3/out/$4 log=target/rt-$2-$3.log status=0 flags=("${@:5}")
    mkdir -p "$(dirname "$1")"
    exec 8> target/rt.lock
    flock 8
    if ! newer_than_sources "$1"; then
        # What was built without the flags may be there, too.
        if [ "${#flags[@]}" -gt 0 ] || ! newer_than_sources "$made"; then
            need rt "it proves and builds $made"
            echo "(cd $folder && rt $2 ${flags[*]})"
            (cd "$folder" && rt "$2" "${flags[@]}") < /dev/null > "$log" 2>&1 || status=$?
            # `rt run` ends with the status of the program, which it runs once it is proved and built.
            if [ "$2" = run ]; then grep -q "^rt: running out/$4;" "$log" && status=0 || status=1; fi
            [ "$status" -eq 0 ] || { tail -n 20 "$log"; die "rt $2 failed in $folder"; }
            [ -s "$made" ] || die "rt $2 made no $made"
        fi
        cp "$made" "$1" || die "$made cannot be copied to $1"
    fi
    flock -u 8
}

# static_library NAME: target/staticlib/libNAME.a, proved, whose calls for C are those of the crate NAME_c, for every processor of x86-64: without the flag it
# would need the instructions of x86-64-v2. program NAME: target/bin/NAME, proved.
static_library() {
    made_by_rt "target/staticlib/lib$1.a" lib "$1_c" "lib$1_c.a" --cpu x86-64
}
program() {
    made_by_rt "target/bin/$1" run "$1" "$1"
}

# put_between NAME FILE PAGE: FILE stands in PAGE between its two marker lines for NAME.
put_between() {
    local made
    made=$(awk -v begin="<!-- $1: begin -->" -v end="<!-- $1: end -->" -v file="$2" '
        $0 == begin { print; print ""; while ((getline line < file) > 0) print line; print ""; inside = 1; seen++; next }
        $0 == end { inside = 0; seen++ }
        !inside
        END { exit seen != 2 }' "$3") || die "$3 lacks its two marker lines for $1"
    printf '%s\n' "$made" > "$3"
}

# The second simulator writes beside its sources when it is built, so a copy of it is built. `simulator` is the copy and `simulate` its program.
simulator=target/second-simulator
simulate=$simulator/target/harness/release/second-simulator
build_simulator() {
    need cargo "the second simulator is written in Rust"
    mkdir -p "$simulator"
    # Scripts may run at the same time: one of them copies and builds, and the other waits for it.
    exec 9> target/second-simulator.lock
    flock 9
    cp -Rp tests/second-simulator/. "$simulator/" || die "cannot copy the second simulator"
    # The same folder as run-harness.sh uses, so that nothing is compiled twice.
    (cd "$simulator" && cargo build --offline --locked --release -q --target-dir target/harness) || die "the second simulator is not built"
    flock -u 9
}

# simulated WORD ..: the simulator's program at the level of tests/level, after build_simulator.
simulated() {
    "$simulate" --level "$level" "$@"
}

# simulator_archive FILE: the simulator behind the calls of include/dispatcher.h, as the archive FILE, after build_simulator. What is linked with it needs
# `beside_archive`, too.
beside_archive=(-lpthread -ldl -lm)
simulator_archive() {
    # Nobody else makes it meanwhile.
    exec 9> target/second-simulator.lock
    flock 9
    "$simulator/make-stub.sh" "$level" > "$1.log" 2>&1 || { cat "$1.log"; die "the second simulator is not built as a C library"; }
    cp "$simulator/stub/lib-$level/libdispatcher.a" "$1" || die "the second simulator's C library is not where it should be"
    flock -u 9
}

# linked_by_simulator SOURCE PROGRAM: a C program whose calls the simulator answers. PROGRAM.o is there as well, to be linked with another dispatcher. After
# build_simulator.
linked_by_simulator() {
    simulator_archive "$2.a"
    gcc -std=c11 -O2 -Wall -Wextra -Werror -pedantic -c -o "$2.o" "$1" || die "$1 does not compile"
    gcc -o "$2" "$2.o" "$2.a" "${beside_archive[@]}" || die "$1 does not link with the second simulator"
}

# build_comparison PROGRAM: a program of tests/compare, after build_simulator and static_library dispatcher and probe. `comparison` is the one with the
# library as it is, and "$comparison-faulty" the one that tests/compare/faults has put behind faults.
comparison=target/compare/release/compare
build_comparison() {
    # Nobody copies the simulator meanwhile.
    exec 9> target/second-simulator.lock
    flock 9
    COMPARE_LIBRARY=$PWD/target/staticlib COMPARE_FAULTY=$PWD/target/compare/faulty cargo build --offline --locked --release -q \
        --manifest-path tests/compare/Cargo.toml --target-dir target/compare --bin "$1" || die "tests/compare is not built"
    flock -u 9
}

# harness MODE ..: the simulator's harness on libdispatcher.a, after build_simulator and static_library dispatcher. No call is left to the simulator.
harness() {
    # It is built first, and nobody copies the simulator meanwhile.
    flock target/second-simulator.lock env -u DISPATCHER_WITHOUT "$simulator/run-harness.sh" "$level" "$PWD/target/staticlib" "$@"
}
