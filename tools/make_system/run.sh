#!/usr/bin/env bash
# Makes each system of samples/c by one command, and the first thread of docs/FROM_C.md, runs it over its events, and
# compares the bytes that it puts with those that were written by hand; then makes mistakes in some of them, and compares
# what is said. With --cheap three systems are made. Usage: tools/make_system/run.sh [--cheap]
set -u
here="$(cd "$(dirname "$0")" && pwd)"
root="$(cd "$here/../.." && pwd)"
tool="$here/microsys_tool"
room="$(mktemp -d)"
trap 'rm -rf "$room"' EXIT
bad=0
mkdir "$room/temporary"
export TMPDIR="$room/temporary"

wrong() {
    echo "$1: $2"
    cat "$room/said"
    bad=$((bad + 1))
}

# The bytes of a file of expectations, one a line.
bytes_of() {
    sed 's/#.*//' "$1" | tr -s ' ' '\n' | grep .
}

# Makes, runs and compares a system.
check() {
    local name="$1" folder="$2" budgets
    "$tool" make "$folder/$name.sys" "$room/$name.img" >"$room/said" 2>&1 || { wrong "$name" "not made" && return; }
    budgets="$(grep ' budget ' "$room/said" | paste -sd,)"
    "$tool" verify "$room/$name.img" >"$room/said" 2>&1 || { wrong "$name" "not accepted" && return; }
    "$tool" run "$room/$name.img" "$folder/$name.events" >"$room/said" 2>&1 || { wrong "$name" "not run" && return; }
    awk '$3 == "byte" { print $4 }' "$room/said" >"$room/bytes"
    bytes_of "$folder/$name.expected" | diff - "$room/bytes" >"$room/said" || { wrong "$name" "other bytes" && return; }
    echo "$name: as expected; $budgets"
}

# A mistake in a copy of a system: the edit of a file, the status, and how what is said begins. Nothing is left behind.
mistake() {
    local name="$1" file="$2" edit="$3" wanted="$4" expected="$5" status
    rm -rf "$room/copy" "$room/made.img"
    cp -r "$root/samples/c/$name" "$room/copy"
    sed -i "$edit" "$room/copy/$file"
    "$tool" make "$room/copy/$name.sys" "$room/made.img" >"$room/out" 2>"$room/said"
    status=$?
    [ "$status" = "$wanted" ] || wrong "$name, $edit" "status $status"
    [ ! -s "$room/out" ] || wrong "$name, $edit" "something was printed"
    [ ! -e "$room/made.img" ] || wrong "$name, $edit" "an image was made"
    case "$(grep -v '^\.\. ' "$room/said")" in
    "$expected"*) ;;
    *) wrong "$name, $edit" "refused otherwise than $expected" ;;
    esac
}

# A part that is certified in no way: what to write instead, by its line. With `checked` and `AT_MOST` it is made, and notes
# say what is tested.
advised() {
    local table='static const uint8_t table[10] = {1, 2, 3};'
    rm -rf "$room/copy"
    cp -r "$root/samples/c/mailbox" "$room/copy"
    sed -i "3s/^/$table/; s/sys_wait(CAP_FULL);/uint32_t w = &/; s/words_at(PAGE_BOX)\[0\]);/table[words_at(PAGE_BOX)[0]]);/
        s/sys_signal/while (w != 1) {\nTURNS w = w \& 1 ? 3 * w + 1 : w \/ 2;\n}\n&/" "$room/copy/reader.c"
    sed 's/^TURNS//' "$room/copy/reader.c" >"$room/reader.c"
    sed -i 's/^TURNS/AT_MOST(200);/' "$room/copy/reader.c"
    (cd "$room/copy" && "$tool" make mailbox.sys made.img) >"$room/out" 2>"$room/said" && wrong advised "made as it is"
    grep -q '^reader.c:7: note: nothing shows that `words_at(PAGE_BOX)\[0\]`, an index of `table`, is inside of its 10 bytes: '"\
"'test it with `if`, or write `below(10, ..)`, or say `checked` in the line `program`$' "$room/said" ||
        wrong advised "nothing on the index"
    sed -i 's/program reader.c/& checked/' "$room/copy/mailbox.sys"
    (cd "$room/copy" && "$tool" make mailbox.sys made.img) >"$room/out" 2>"$room/said" || wrong advised "not made"
    grep -q '^reader.c:10: note: 200 turns at most, ' "$room/out" && grep -q '^reader.c:7: note: checked at run time ' "$room/out" ||
        wrong advised "not noted"
    cp "$room/reader.c" "$room/copy/reader.c"
    (cd "$room/copy" && "$tool" make mailbox.sys made.img) >"$room/out" 2>"$room/said" && wrong advised "made without turns"
    grep -q '^reader.c:9: note: nothing shows that `while (w != 1)` ends: write `AT_MOST(MOST);` first in its body, ' "$room/said" ||
        wrong advised "nothing on the loop"
}

# The words with the system on standard input and what is made on standard output give the same as with files.
streams() {
    local folder="$root/samples/c/ring"
    (cd "$folder" && "$tool" make - - <ring.sys >"$room/stream.img" 2>"$room/said") || wrong "make - -" "not made"
    grep -q ' budget ' "$room/said" || wrong "make - -" "no budgets"
    cmp "$room/ring.img" "$room/stream.img" >"$room/said" || wrong "make - -" "another image"
    "$tool" expand "$folder/ring.sys" "$room/ring.text" >"$room/said" || wrong "expand" "no text"
    "$tool" certify "$room/ring.text" "$room/ring.certified" >"$room/said" || wrong "certify" "no certificates"
    "$tool" explain "$folder/ring.sys" >"$room/said" || wrong "explain" "not accepted"
    "$tool" draw "$folder/ring.sys" >"$room/said" && grep -q '^digraph' "$room/said" || wrong "draw" "no graph"
}

# Of two cases of a folder one is as expected, and the other has another first byte; each has its line, and one alone is asked for by
# its name.
cases() {
    local folder="$root/samples/c/ring"
    mkdir "$room/cases"
    cp "$folder/ring.events" "$room/cases/as_expected.events"
    cp "$folder/ring.expected" "$room/cases/as_expected.bytes"
    cp "$folder/ring.events" "$room/cases/otherwise.events"
    { echo 7e && bytes_of "$folder/ring.expected" | sed 1d; } >"$room/cases/otherwise.bytes"
    "$tool" test "$folder/ring.sys" "$room/cases" >"$room/said" 2>"$room/errors"
    [ $? = 1 ] || wrong "test of a folder" "another status"
    printf 'TAP version 14\n1..2\nok 1 - as_expected\nnot ok 2 - otherwise\n' >"$room/wanted"
    grep -v '^ ' "$room/said" | diff "$room/wanted" - >"$room/diff" || wrong "test of a folder" "other lines"
    grep -q '^    byte 1: not as line 1 of what is expected says$' "$room/said" || wrong "test of a folder" "not said why"
    "$tool" test "$folder/ring.sys" "$room/cases" --only as_ >"$room/said" 2>"$room/errors" || wrong "test --only" "fails"
    printf 'TAP version 14\n1..1\nok 1 - as_expected\n' | diff - "$room/said" >"$room/diff" || wrong "test --only" "other lines"
}

# A number that is given for a name is the description's and the compiler's, and what is included is read from beside the description:
# the part puts the letter that is given, and waits for the line that is.
given() {
    mkdir "$room/given"
    printf 'let line_of_b 1\ninclude bells.sys\npart p 1\n  waits b line line_of_b\n  program p.c\nend\n' >"$room/given/given.sys"
    printf 'bell b\n' >"$room/given/bells.sys"
    printf '#include "microsys.h"\nTHREAD p(void) { for (;;) { sys_wait(CAP_B); sys_put_char(LETTER); } }\n' >"$room/given/p.c"
    "$tool" make "$room/given/given.sys" "$room/made.img" -D LETTER=66 -D line_of_b=5 >"$room/said" 2>&1 ||
        wrong "make -D" "not made"
    grep -q 'given.sys:4: .*interrupt line 5 rings b once' "$room/said" || wrong "make -D" "not noted"
    printf 'step 100\nirq 5\nstep 100\n' >"$room/given/given.events"
    [ "$("$tool" run "$room/made.img" "$room/given/given.events" --bytes)" = B ] || wrong "make -D" "other bytes"
    rm -f "$room/made.img"
}

# A writer whose fourth number has two digits, and a reader that asserts that it has one: what fails is reported by its line, of a list of
# events, of a test, of a live run and of a trace; with three beats nothing is.
failed() {
    local folder="$room/box" beats
    mkdir "$folder"
    cat >"$folder/box.sys" <<'SYSTEM'
page box
bell beat
bell full
part writer 100
  waits beat line 1
  rings full
  writes box
  program writer.c
end
part reader 90
  waits full
  sees box
  program reader.c
end
SYSTEM
    cat >"$folder/writer.c" <<'WRITER'
#include "microsys.h"
THREAD writer(void) {
    uint32_t count = 0;
    for (;;) {
        sys_wait(CAP_BEAT);
        count = (count + 3) & 15;
        words_at(PAGE_BOX)[0] = count;
        sys_signal(CAP_FULL);
        handler_ack(CAP_BEAT_LINE1);
    }
}
WRITER
    cat >"$folder/reader.c" <<'READER'
#include <assert.h>
#include "microsys.h"
THREAD reader(void) {
    for (;;) {
        sys_wait(CAP_FULL);
        uint32_t count = words_at(PAGE_BOX)[0];
        assert(count < 10);
        sys_put_char('0' + count);
    }
}
READER
    for beats in 3 4; do
        yes "$(printf 'irq beat\nstep 100')" | head -n $((2 * beats)) >"$folder/$beats.events"
        "$tool" run "$folder/box.sys" "$folder/$beats.events" >"$folder/$beats.trace" 2>"$folder/$beats.said" || wrong "run box.sys" "fails"
    done
    grep -q 'an assert failed' "$folder/3.said" && wrong "run box.sys" "reported without a failure"
    "$tool" test "$folder/box.sys" "$folder/4.events" "$folder/4.trace" >"$room/said" 2>"$folder/5.said" || wrong "test box.sys" "fails"
    "$tool" run "$folder/box.sys" - <"$folder/4.events" >"$room/said" 2>"$folder/6.said" || wrong "run box.sys -" "fails"
    diff "$folder/4.trace" "$room/said" >"$room/diff" || wrong "run box.sys -" "other lines"
    "$tool" chart "$folder/4.trace" "$folder/box.sys" >"$room/said" 2>"$folder/7.said" || wrong "chart box.sys" "fails"
    for beats in 4 5 6 7; do
        grep -q '^reader.c:7: an assert failed: reader waits here for ever, from event ' "$folder/$beats.said" ||
            wrong "box.sys, $beats" "nothing on the assert"
    done
}

# Nothing is written over what is read.
kept() {
    local target
    cp -r "$root/samples/c/key_store" "$room/copy"
    for target in key_store.sys vault.c requests.h; do
        (cd "$room/copy" && "$tool" make key_store.sys "$target") >"$room/out" 2>"$room/said"
        [ $? = 3 ] && grep -q 'one of the sources' "$room/said" || wrong "make key_store.sys $target" "reported otherwise"
    done
    diff -r "$root/samples/c/key_store" "$room/copy" >"$room/said" || wrong "make over sources" "written"
}

# What has no part in C is the program's, whatever it says.
handed_over() {
    local program="${MICROSYS_TOOL:-$root/crates/microsys_tool/out/microsys_tool}" words
    for words in "expand $root/samples/gallery/controller.sys -" "expand missing.sys -" "make one" "run one" "--help" "nothing"; do
        # shellcheck disable=SC2086
        "$program" $words >"$room/own" 2>&1
        echo "status $?" >>"$room/own"
        # shellcheck disable=SC2086
        "$tool" $words >"$room/said" 2>&1
        echo "status $?" >>"$room/said"
        diff "$room/own" "$room/said" >"$room/diff" || wrong "$words" "otherwise than the program"
    done
}

systems="ring key_store monitor"
[ "${1:-}" = --cheap ] || systems="$(cd "$root/samples/c" && echo *)"
for name in $systems; do
    check "$name" "$root/samples/c/$name"
done

# The first thread of docs/FROM_C.md rings twice, and puts one and two stars.
page="$root/docs/FROM_C.md"
mkdir "$room/first"
sed -n '/^    bell bell$/,/^    end$/p' "$page" | sed 's/^    //' >"$room/first/first.sys"
sed -n '/^    #include "microsys.h"$/,/^    }$/p' "$page" | sed 's/^    //' >"$room/first/ring.c"
printf 'step 100\nirq 3\nstep 100\nirq 3\nstep 100\n' >"$room/first/first.events"
echo "2a 2a 2a" >"$room/first/first.expected"
check first "$room/first"
streams
cases
given
failed
kept
handed_over
advised
"$here/notes.py" "$tool" >"$room/said" 2>&1 || wrong "notes.py" "otherwise"
mistake mailbox reader.c 's/sys_signal(CAP_EMPTY)/&&/' 1 "reader.c:9: error: "
mistake mailbox reader.c 's/sys_wait(CAP_FULL)/sys_recv(CAP_FULL)/' 1 \
    "reader.c:6: error: incompatible type for argument 1 of 'sys_recv': expected 'struct door' but argument is of type 'struct bell'"
mistake mailbox reader.c 's/CAP_EMPTY/CAP_NOTHING/' 1 "reader.c:9: error: "
mistake mailbox reader.c 's/for (;;) {/{/' 1 "reader.c:11: \`reader\` returns"
mistake mailbox reader.c 's/sys_signal(CAP_EMPTY)/while (words_at(PAGE_BOX)[0]) { }/' 1 "reader.c:9: mailbox.text:"
mistake mailbox mailbox.sys 's/program reader.c/program missing.c/' 1 "mailbox.sys:19: there is no file missing.c"
mistake mailbox mailbox.sys 's/rings full/rings fall/' 1 "mailbox.sys:10: "
mistake mailbox mailbox.sys 's/program reader.c/program/' 1 "mailbox.sys:19: "
mistake mailbox mailbox.sys 's/part reader/part readers/' 1 "mailbox.sys:19: no function \`readers\` in reader.c"
mistake button button.sys 's/program world.c/& data 0/' 1 \
    "button.sys:16: \`data 0\` is too little for world, which has 16 bytes of constants and variables: say \`data 1\`, or leave it out"
[ -z "$(ls "$room/temporary")" ] || { ls "$room/temporary" >"$room/said" && wrong "temporary files" "left behind"; }

# Without the compiler it says so.
without_compiler() {
    mkdir "$room/bin"
    ln -s "$(command -v sh)" "$(command -v readlink)" "$(command -v dirname)" "$(command -v grep)" "$room/bin"
    ln -s "$(python3 -c 'import sys; print(sys.executable)')" "$room/bin/python3"
    PATH="$room/bin" "$tool" make "$root/samples/c/ring/ring.sys" "$room/made.img" >"$room/said" 2>&1
    [ $? = 3 ] && grep -q '^riscv64-unknown-elf-gcc is not there: apt-get install gcc-riscv64-unknown-elf$' "$room/said" ||
        wrong "no compiler" "reported otherwise"
}
without_compiler

[ "$bad" = 0 ] && echo "all as expected"
[ "$bad" = 0 ]
