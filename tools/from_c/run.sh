#!/usr/bin/env bash
# Compiles the programs for this machine and compares the bytes that they put with what is expected; makes texts of the
# programs and systems from C, has them certified, builds, verifies and runs them, and compares the bytes again; does so
# with the threads that use headers of this folder, whose bytes Python reckons and whose budgets the headers name; and
# compares what is said of C that cannot be converted. Programs of natural/ are certified as they are written, or by what
# their list says. What lacks its program is skipped, and a line says so.
# Usage: tools/from_c/run.sh [--cheap | CERTIFIER [MICROSYS]]. CERTIFIER is called as `CERTIFIER certify SRC OUT`; by itself
# it is the one that `make build tool` leaves. With --cheap nothing is certified. tools/smoke.sh runs that.
set -u
here="$(cd "$(dirname "$0")" && pwd)"
root="$(cd "$here/../.." && pwd)"
cheap=''
[ "${1:-}" != --cheap ] || { cheap=yes && shift; }
certifier="$(realpath -m "${1:-$root/crates/microsys_tool/out/microsys_tool}")"
microsys="$(realpath -m "${2:-$root/crates/microsys/out/microsys}")"
room="$(mktemp -d)"
trap 'rm -rf "$room"' EXIT
bad=0

# Whether the programs are there that a part needs; if not, a line says which part is skipped.
have() {
    local part="$1" program
    shift
    for program in "$@"; do
        command -v "$program" >"$room/found" || { echo "skipped: $part: $program is not there" && return 1; }
    done
}

have "programs on this machine" cc && native=yes || native=''
have "texts from C" riscv64-unknown-elf-gcc && compiler=yes || compiler=''
[ -n "$cheap" ] || have "certificates" "$certifier" "$microsys" || cheap=yes

# What goes wrong, with the lines that it printed.
wrong() {
    echo "$1: $2"
    cat "$room/said"
    bad=$((bad + 1))
}

# The bytes of a file of expectations, one a line.
bytes_of() {
    sed 's/#.*//' "$1" | tr -s ' ' '\n' | grep .
}

# Runs a step of a check, whose errors are kept with what it prints; a failure is reported as the title.
step() {
    local name="$1" title="$2"
    shift 2
    "$@" >"$room/said" 2>&1 || { wrong "$name" "$title" && false; }
}

# One system: a description, its events, and the bytes that it must put.
check() {
    local name="$1" description="$2" events="$3" expected="$4" made="$room/$1" budgets
    [ -n "$compiler" ] || return 0
    step "$name" "not converted" "$here/from_c.py" "$description" "$made.text" || return
    [ -z "$cheap" ] || return 0
    step "$name" "not certified" "$certifier" certify "$made.text" "$made.txt" || return
    budgets="$(grep -i budget "$room/said" | paste -sd' ')"
    step "$name" "not built" "$microsys" build "$made.txt" "$made.img" || return
    step "$name" "not accepted" "$microsys" verify "$made.img" || return
    step "$name" "not run" "$microsys" run "$made.img" "$events" || return
    awk '$3 == "byte" { print $4 }' "$room/said" >"$made.bytes"
    bytes_of "$expected" >"$made.wanted"
    step "$name" "other bytes" diff "$made.wanted" "$made.bytes" || return
    echo "$name: as expected; $budgets"
}

# The description of a program in `folder` of one thread: $room/NAME/NAME.txt.
describe() {
    local name="$1" folder="$2"
    mkdir -p "$room/$name"
    cp "$folder/$name.c" "$room/$name"
    sed "s/NAME/$name/" "$here/programs/thread.txt" >"$room/$name/$name.txt"
}

# A program on this machine, as it is and as it was before it was rewritten: the same bytes, and at most one line in
# six is another.
natively() {
    local name="$1" source
    for source in "$here/programs/$name.c" "$here/programs/before/$name.c"; do
        [ -e "$source" ] || continue
        step "$name" "does not compile for this machine" \
            cc -O1 -w -fwrapv -DRINGS=1 -I"$here/host" -o "$room/native" "$source" || return
        step "$name" "does not end on this machine" timeout 10 "$room/native" || return
        cp "$room/said" "$room/native.bytes"
        bytes_of "$here/programs/$name.expected" >"$room/wanted"
        step "$name" "other bytes on this machine" diff "$room/wanted" "$room/native.bytes" || return
    done
    [ -e "$source" ] || return 0
    step "$name" "more than one line in six is rewritten" python3 "$here/rewritten.py" "$source" "$here/programs/$name.c"
}

for source in "$here"/programs/*.c; do
    name="$(basename "$source" .c)"
    [ -z "$native" ] || natively "$name"
    describe "$name" "$here/programs"
    check "$name" "$room/$name/$name.txt" "$here/programs/thread.events" "$here/programs/$name.expected"
done
for folder in "$here"/systems/* "$root/samples/gallery/controller_from_c"; do
    name="$(basename "$folder" _from_c)"
    check "$name" "$folder/$name.txt" "$folder/$name.events" "$folder/$name.expected"
done

# A thread that uses a header: on this machine and as a thread it puts the bytes that Python reckons, and the header names
# its budget. So many rings give at most a million events.
snippet() {
    local name="$1" rings=96 made="$room/snippet_$1" header budget
    [ "$name" != long_frames ] || rings=24
    step "$name" "not reckoned" "$here/snippets/reckon.py" "$name" "$rings" || return
    cp "$room/said" "$room/wanted"
    if [ -n "$native" ]; then
        step "$name" "does not compile for this machine" cc -O1 -Wall -Wextra -Wno-main -fwrapv -DRINGS="$rings" \
            -iquote "$here/include" -I"$here/host" -o "$room/native" "$here/snippets/$name.c" || return
        step "$name" "does not end on this machine" timeout 10 "$room/native" || return
        cp "$room/said" "$room/native.bytes"
        step "$name" "other bytes on this machine" diff "$room/wanted" "$room/native.bytes" || return
    fi
    [ -n "$compiler" ] || return 0
    describe "$name" "$here/snippets"
    cp "$here/snippets/random.h" "$room/$name"
    step "$name" "not converted" "$here/from_c.py" "$room/$name/$name.txt" "$made.text" || return
    [ -z "$cheap" ] || return 0
    step "$name" "not certified" "$certifier" certify "$made.text" "$made.txt" || return
    budget="$(sed -n 's/^thread budget //p' "$room/said")"
    for _ in $(seq "$rings"); do
        printf 'step %s\nirq 3\n' $((budget + 10))
    done >"$made.events"
    echo "step $((budget + 10))" >>"$made.events"
    step "$name" "not built" "$microsys" build "$made.txt" "$made.img" || return
    step "$name" "not accepted" "$microsys" verify "$made.img" || return
    step "$name" "not run" "$microsys" run "$made.img" "$made.events" || return
    awk '$3 == "byte" { print $4 }' "$room/said" >"$made.bytes"
    step "$name" "other bytes" diff "$room/wanted" "$made.bytes" || return
    header="$(sed -n 's/^#include "\(.*\)"$/\1/p' "$here/snippets/$name.c" | grep -v -e microsys.h -e random.h)"
    [ "$name" = long_frames ] || step "$name" "$header names another budget than $budget" \
        grep -qw "^ \* Budget.*$budget" "$here/include/$header" || return
    echo "$name: as expected; thread budget $budget"
}
for source in "$here"/snippets/*.c; do
    snippet "$(basename "$source" .c)"
done

# Programs as they are written elsewhere: as a thread each puts the bytes that it puts on this machine, by two compilers. Those
# that natural/accepted.txt names are certified as written, the others with `checked`, or with their lines `AT_MOST` too.
natural() {
    local name="$1" way="$2" made="$room/natural_$1" other
    mkdir -p "$room/$name"
    cp "$here/natural/$name.c" "$room/$name"
    [ "$way" = AT_MOST ] || sed -i '/^ *AT_MOST(.*);$/d' "$room/$name/$name.c"
    for other in cc clang; do
        command -v "$other" >"$room/found" || continue
        step "$name" "does not compile by $other" "$other" -O1 -w -fwrapv -I"$here/host" -o "$room/native" "$room/$name/$name.c" || return
        step "$name" "does not end, by $other" timeout 10 "$room/native" || return
        cp "$room/said" "$made.$other"
    done
    [ ! -e "$made.clang" ] || step "$name" "other bytes by clang" cmp "$made.cc" "$made.clang" || return
    [ -n "$compiler" ] && [ -z "$cheap" ] || return 0
    sed "s/NAME.c/$name.c$([ "$way" = written ] || echo " checked")/" "$here/programs/thread.txt" >"$room/$name/$name.txt"
    step "$name" "not converted" "$here/from_c.py" --certifier "$certifier" "$room/$name/$name.txt" "$made.text" || return
    step "$name" "not certified" "$certifier" certify "$made.text" "$made.txt" || return
    step "$name" "not built" "$microsys" build "$made.txt" "$made.img" || return
    step "$name" "not run" "$microsys" run "$made.img" "$here/programs/thread.events" || return
    awk '$3 == "byte" { print $4 }' "$room/said" >"$made.bytes"
    step "$name" "other bytes" diff "$made.cc" "$made.bytes" || return
    echo "$name: as expected, $way"
}
[ -z "$native" ] || while read -r name way; do
    case "$name" in '' | '#'*) ;; *) natural "$name" "$way" ;; esac
done <"$here/natural/accepted.txt"

# The passes on rows, and each function of microsys.h with each kind of capability.
step "check_passes.py" "otherwise" python3 -B "$here/check_passes.py"
[ -z "$compiler" ] || if [ -n "$cheap" ]; then
    step "capabilities.py" "otherwise" python3 -B "$here/capabilities.py"
else
    step "capabilities.py" "otherwise" python3 -B "$here/capabilities.py" "$certifier" "$microsys"
fi

# The gallery's certified text, as it stands there.
[ -n "$cheap" ] || {
    step certified.txt "not built" "$microsys" build "$root/samples/gallery/controller_from_c/certified.txt" "$room/it.img" &&
        step certified.txt "not accepted" "$microsys" verify "$room/it.img"
}

# The first thread of docs/FROM_C.md rings three times, and puts one, two and three stars.
page="$root/docs/FROM_C.md"
mkdir "$room/page"
sed -n '/^    memory 16 5$/,/^    end$/p' "$page" | sed 's/^    //' >"$room/page/ring.txt"
sed -n '/^    #include "microsys.h"$/,/^    }$/p' "$page" | sed 's/^    //' >"$room/page/ring.c"
printf 'step 100\nirq 3\nstep 100\nirq 3\nstep 100\nirq 3\nstep 100\n' >"$room/page/ring.events"
echo "2a 2a 2a 2a 2a 2a" >"$room/page/ring.expected"
check "the page's thread" "$room/page/ring.txt" "$room/page/ring.events" "$room/page/ring.expected"

# The text of a thread with these declarations and this body, or nothing and a message.
text_of() {
    mkdir -p "$room/body"
    printf '#include "microsys.h"\n%s\nTHREAD main(void) {\nfor (;;) {\nuint32_t rung = sys_wait(CAP_BELL);\n' "$1" \
        >"$room/body/body.c"
    printf '%s\nhandler_ack(CAP_LINE);\n(void)rung;\n}\n}\n' "$2" >>"$room/body/body.c"
    sed "s/NAME/body/" "$here/programs/thread.txt" >"$room/body/body.txt"
    rm -f "$room/body/body.certified"
    step "$2" "not converted" "$here/from_c.py" "$room/body/body.txt" "$room/body/body.text"
}

# What is not certified, and what is in its place.
with='' pairs=0
[ -n "$cheap" ] || while read -r word rest; do
    case "$word" in
    with) with="$with $rest" ;;
    not)
        text_of "$with" "$rest" || continue
        "$certifier" certify "$room/body/body.text" "$room/body/body.certified" >"$room/said" 2>&1 &&
            wrong "$rest" "certified"
        ;;
    but)
        text_of "$with" "$rest" &&
            step "$rest" "not certified" "$certifier" certify "$room/body/body.text" "$room/body/body.certified"
        with='' pairs=$((pairs + 1))
        ;;
    esac
done <"$here/instead.txt"
[ -n "$cheap" ] || echo "$pairs pairs of what is not certified, and what is"

# What is no program: its first line says what is said of it, and no text is made.
refuses() {
    local name
    name="$(basename "$1" .c)"
    describe "$name" "$here/refused"
    "$here/from_c.py" "$room/$name/$name.txt" "$room/$name.text" >"$room/said" 2>&1 && wrong "$name" "converted"
    sed -n '1s|^// ||p' "$1" | diff - "$room/said" >"$room/diff" || wrong "$name" "refused otherwise"
    [ ! -e "$room/$name.text" ] || wrong "$name" "a text was made"
}
[ -z "$compiler" ] || for source in "$here"/refused/*.c; do
    refuses "$source"
done

# Descriptions at fault: the program, what replaces a line of thread.txt, and what is said on standard error.
lacks() {
    local name="$1" edit="$2" expected="$3"
    describe "$name" "$here/programs"
    sed -i "$edit" "$room/$name/$name.txt"
    "$here/from_c.py" "$room/$name/$name.txt" "$room/lacks.text" 2>"$room/said" >"$room/out" && wrong "$name, $edit" "converted"
    [ "$(cat "$room/said")" = "$expected" ] || wrong "$name, $edit" "refused otherwise"
}
lacks sort 's/^program sort.c/program missing.c/' "sort.txt:23: there is no file missing.c"
lacks sort 's/^program.*/program/' "sort.txt:23: the line is \`program FILE.c .. [checked] [data ADDRESS] [stack ADDRESS]\`"
lacks sort 's/stack 0x6000$/stack 0x6008/' "sort.txt:23: data begin at a multiple of 4096, and a stack ends at a multiple of 16"
lacks sort 's/^map space 0x5000.*/map space/' "sort.txt:21: not understood: map space"
lacks sort '4s/$/ \xff/' "sort.txt:4: this is not UTF-8"

# The same of programs that are compiled.
places() {
    lacks crc32 's/ data 0x4000//' \
        "crc32.txt:23: the program of thread has 9 bytes of constants and variables: say \`data ADDRESS\` here"
    lacks sort 's/ stack 0x6000//' "sort.txt:23: the program of thread has 48 bytes of stack: say \`stack ADDRESS\`\
 here, the address behind its last byte"
    lacks crc32 '/^map space 0x4000/d' \
        "crc32.txt:21: \`map space 0x4000 FRAME 2\` is missing, for the data of thread from 0x4000 to 0x4008"
    lacks sort '/^map space 0x5000/d' \
        "sort.txt:21: \`map space 0x5000 FRAME 3\` is missing, for the stack of thread from 0x5fd0 to 0x5fff"
    lacks sort 's/^map space 0x1000 code 4/map space 0x1000 code 2/' \
        "sort.txt:22: \`map space 0x1000 FRAME 4\` is missing, for the program of thread from 0x1000 to 0x1103"
    lacks crc32 's/^object bell/data data 1\nobject bell/' \
        "crc32.txt:24: the frame data has data already: give each thread frames of its own for its data"
    lacks sort 's/ main 0x1000/ start 0x1000/' "sort.txt:23: no function \`start\` in sort.c"
    lacks pid 's/stack 0x6000/stack 0x4030/' "pid.txt:23: the data of thread, 20 bytes from 0x4000 to 0x4013, and the\
 stack of thread, 48 bytes from 0x4000 to 0x402f, overlap: end the stack further on, in a page of its own"
    lacks pid 's/ stack 0x6000/\nreg x2 0x4030/' "pid.txt:23: the data of thread, 20 bytes from 0x4000 to 0x4013, and the\
 stack of thread, 48 bytes from 0x4000 to 0x402f, overlap: end the stack further on, in a page of its own"
    lacks sort 's/stack 0x6000/&\nreg x2 0x6000/' \
        "sort.txt:23: the end of the stack is said here and by \`reg x2 0x6000\`: say it once"
    lacks sort 's/^map space 0x5000.*/&\nmap other 0x7000 stack 3/' "sort.txt:24: the stack of thread, 48 bytes from 0x5fd0\
 to 0x5fff, and \`map other 0x7000 stack 3\` of line 22 share the frame stack: give the stack of thread a frame of its own"
    lacks sort 's/^program/buffer stack\n&/' "sort.txt:24: the stack of thread, 48 bytes from 0x5fd0 to 0x5fff, and \`buffer\
 stack\` of line 23 share the frame stack: give the stack of thread a frame of its own"
    lacks sort 's/^object stack memory frame/& 1/' "sort.txt:23: the stack of thread, 48 bytes from 0x5fd0 to 0x5fff, and the\
 device page of line 10 share the frame stack: give the stack of thread a frame of its own"
    lacks crc32 's/^map space 0x4000.*/&\nmap space 0x7000 data 2/' "crc32.txt:24: the data of thread, 9 bytes from 0x4000\
 to 0x4008, and \`map space 0x7000 data 2\` of line 21 share the frame data: give the data of thread a frame of its own"
    lacks crc32 's/^cap slots 2.*/&\ncap slots 3 data 3 0/' "crc32.txt:24: the data of thread, 9 bytes from 0x4000 to 0x4008,\
 and \`cap slots 3 data\` of line 17, which can be mapped elsewhere, share the frame data: give the data of thread a frame of\
 its own"
}
[ -z "$compiler" ] || places

# Functions of a maker's own win over the runtime's.
[ -z "$compiler" ] || {
    text_of 'uint32_t __mulsi3(uint32_t a, uint32_t b) { return a << b; } static volatile uint32_t factor;' \
        'sys_put_char(factor * factor);' && grep -q '^sll ' "$room/body/body.text" || wrong "__mulsi3" "not the maker's own"
}

[ "$bad" = 0 ] && echo "all as expected"
[ "$bad" = 0 ]
