# What .ci/run, tests/run, tests/desk, tests/install, tests/fuzz/run, samples/run, bench/run, bench/whole, bench/native, check and show have in common; they read
# it with `.` from the root of the repository.
#
#   need COMMAND PACKAGE..   installs Debian packages, if the command is missing
#   need_header FILE PACKAGE..  the same, if gcc doesn't find the header
#   bring PACKAGE..          installs them
#   need_c, need_tests       what C programs over the archive need, and what the tests need besides
#   kit                      the folder of the Rattle kit that `rt` belongs to
#   CC, CXX, NM, LINK, RUN   the compilers and nm for x86-64, what they are told when they link, and what runs their programs (arrays)
#   PROGRAM                  what runs a program of the crates, which is linked with the C library of x86-64: on another machine the kit's own (array)
#   archive NAME             proves the crate and leaves crates/NAME/out/libNAME.a, unless the one that is there was made of the same sources
#   program NAME             proves the program and leaves crates/NAME/out/NAME, likewise
# Scripts that run at the same time may call these two: one waits for the other.
#   archive_over NAME FILE [TOOLCHAIN]  proves the crate alone and compiles it into the archive FILE, over the libraries that stand in crates/*/out
#   is_made FILE, note_made FILE  whether it is noted of the file that it was made of the kit and the sources as they are, and noting it
#   compile_model FILE       compiles the model of tests/model, which runs natively, into the file
#
# Programs over the archive are for x86-64. On another machine they are compiled by a cross compiler, linked statically, since there is no x86-64
# C library to load, and run under an emulator.

command -v rt > /dev/null || { echo "rt, the command of the Rattle kit, is not on the path" >&2; exit 1; }
kit=$(cd "$(dirname "$(readlink -f "$(command -v rt)")")/.." && pwd)
machine=$(uname -m)

bring() {
    local as_root=()
    [ "$(id -u)" = 0 ] || as_root=(sudo)
    # The lists of packages may be missing or old on a fresh machine.
    "${as_root[@]}" apt-get update -qq > /dev/null || true
    # sudo takes no variable along by itself
    "${as_root[@]}" env DEBIAN_FRONTEND=noninteractive apt-get install -y -qq --no-install-recommends "$@" > /dev/null
}

need() {
    local command=$1
    shift
    if command -v "$command" > /dev/null; then return 0; fi
    echo "installing $* for $command"
    bring "$@"
    command -v "$command" > /dev/null || { echo "$command is missing, and $* did not bring it" >&2; exit 1; }
}

has_header() {
    echo "#include <$1>" | gcc -E - > /dev/null 2>&1
}

need_header() {
    local header=$1
    shift
    if has_header "$header"; then return 0; fi
    echo "installing $* for $header"
    bring "$@"
    has_header "$header" || { echo "$header is missing, and $* did not bring it" >&2; exit 1; }
}

need_c() {
    need make make
    need flock util-linux
    if [ "$machine" = x86_64 ]; then
        need gcc gcc libc6-dev
    else
        need x86_64-linux-gnu-gcc gcc-x86-64-linux-gnu libc6-dev-amd64-cross
        need qemu-x86_64 qemu-user
    fi
}

need_tests() {
    need_c
    if [ "$machine" = x86_64 ]; then
        need g++ g++
    else
        need x86_64-linux-gnu-g++ g++-x86-64-linux-gnu libc6-dev-amd64-cross
        # rustc links the model, which runs natively
        need cc gcc libc6-dev
    fi
    need rustc rustc
    need python3 python3
    need setpriv util-linux
}

if [ "$machine" = x86_64 ]; then
    CC=(gcc)
    CXX=(g++)
    NM=(nm)
    LINK=()
    RUN=()
    PROGRAM=()
else
    CC=(x86_64-linux-gnu-gcc)
    CXX=(x86_64-linux-gnu-g++)
    NM=(x86_64-linux-gnu-nm)
    LINK=(-static)
    # The emulator does `rep stos` byte by byte. Without erms the C library clears memory in another way, a hundred times as fast there.
    RUN=(qemu-x86_64 -cpu max,-erms)
    PROGRAM=("${RUN[@]}" "$kit/toolchain/lib/ld-linux-x86-64.so.2" --library-path "$kit/toolchain/lib")
fi

quietly() {
    local log
    log=$(mktemp)
    if ! "$@" > "$log" 2>&1; then
        cat "$log" >&2
        rm -f "$log"
        return 1
    fi
    rm -f "$log"
}

# What a file in a crate's out/ is made of, the kit and the crates, and the file itself, each as one number.
made_of() {
    { rt version; cat crates.txt; find crates/*/src crates/*/specs crates/*/proofs -type f -print0 | sort -z | xargs -0 sha256sum; } | sha256sum
    sha256sum < "$1"
}

note_made() {
    made_of "$1" > "$1.made"
}

is_made() {
    [ -f "$1" ] && [ -f "$1.made" ] && [ "$(cat "$1.made")" = "$(made_of "$1")" ]
}

# One at a time: while one script uses what it has made, another must not make it anew.
by_itself() {
    (
        flock 9
        "$@"
    ) 9< crates.txt
}

in_crate() {
    (cd "crates/$1" && "${@:2}" < /dev/null)
}

make_archive() {
    local file=crates/$1/out/lib$1.a
    ! is_made "$file" || return 0
    rm -f "$file" "$file.made"
    quietly in_crate "$1" rt lib && note_made "$file"
}

# rt run runs the program too, in its crate's folder, and ends with the program's own status: whether it is proved and linked is seen by the file.
run_crate() {
    in_crate "$1" rt run || [ -f "crates/$1/out/$1" ]
}

make_program() {
    local file=crates/$1/out/$1
    ! is_made "$file" || return 0
    rm -f "$file" "$file.made"
    quietly run_crate "$1" && note_made "$file"
}

archive() {
    by_itself make_archive "$1"
}

program() {
    by_itself make_program "$1"
}

# The words that rt lib has for the compiler. rt lib itself would first prove each library below again that rt ci has left, since rt ci notes of none what it was made of.
archive_over() {
    local name=$1 file=$2 toolchain=${3:-$kit/toolchain} below words=()
    for below in std $(sed -n -e 's/#.*//' -e "s/^$name  *staticlib *: *//p" crates.txt); do
        if [ -d "crates/$below" ]; then words+=(--extern "$below=../$below/out/rlib/$below.rlib"); else words+=(--extern "$below=$kit/rlibs/$below.rlib"); fi
    done
    for below in crates/*/out/rlib; do words+=(-L "dependency=../../$below"); done
    file=$(realpath -m "$file")
    mkdir -p "$(dirname "$file")"
    quietly in_crate "$name" "$kit/bin/rattle" build --crate-name "$name" src/lib.rt --crate-type staticlib "${words[@]}" -L "dependency=$kit/rlibs" \
        --antt-project "$kit/rattle/logic/antt-project.json" --logic-built "$kit/logic_built" --jobs 2 --links "$name=" --toolchain "$toolchain" \
        --backend llvm -o "$file"
}

compile_model() {
    rustc -O --edition 2021 tests/model/main.rs -o "$1"
}
