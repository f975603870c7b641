#!/usr/bin/env bash
# Starts what is cheap of each script under tools/, some seconds each: what needs nothing but Python 3 and the repository
# runs everywhere; what lacks a compiler, another program, or the built product is skipped, and a line says so. Prints a
# line for each part, and fails where one fails, or where a script is neither started nor named. `make test` runs it before
# the gate.
set -u
cd "$(dirname "$0")/.." || exit 1
room="$(mktemp -d)"
trap 'rm -rf "$room"' EXIT
bad=0

# Notes the scripts that words name, as tools/..; `all_are_named` looks for others.
note() {
    grep -oE 'tools/[a-z_0-9/]+(\.py|\.sh)?' <<<"$*" >>"$room/named"
}

# Runs a part, whose lines are shown where it fails, and those of what it skips in any case.
part() {
    local name="$1"
    note "$@"
    shift
    if "$@" >"$room/said" 2>&1; then
        echo "as expected: $name"
        grep '^skipped: ' "$room/said"
    else
        echo "FAILED: $name"
        cat "$room/said"
        bad=$((bad + 1))
    fi
}

# Runs a part that needs programs, or says which of them is not there.
part_with() {
    local needed="$1" program
    shift
    note "$@"
    for program in $needed; do
        command -v "$program" >"$room/found" || { echo "skipped: $1: $program is not there" && return; }
    done
    part "$@"
}

# Names scripts that are not started here, and says why.
skipped() {
    local why="$1" script
    shift
    for script in "$@"; do
        echo "skipped: tools/$script: $why"
        note "tools/$script"
    done
}

# Each script is one: shell, Python and C, as far as they can be read without being run.
scripts_are_read() {
    local file
    find tools samples -name '*.sh' | while read -r file; do bash -n "$file" || echo "$file"; done
    python3 - <<'READ'
from pathlib import Path
for file in sorted(Path("tools").rglob("*.py")):
    compile(file.read_text(encoding="utf-8"), str(file), "exec")
READ
}
scripts_say_nothing() {
    [ -z "$(scripts_are_read 2>&1 | tee /dev/stderr)" ]
}

# The crates that a copy of the repository gets: all that stand below one are there, with their folders.
copies_are_whole() {
    local name
    for name in image verify kernel; do
        tools/checks/below.py "$name" >"$room/below" || return 1
        for below in $(sed 's/^[^:]*://; s/#.*//' "$room/below"); do
            grep -q "^$below:" "$room/below" || [ ! -d "crates/$below" ] || { echo "$name: $below" && return 1; }
        done
    done
}

reckons_damage() {
    # The counts of `crates/program_tests/src/damage` for the first bytes of a sample.
    python3 tools/damage/reckon.py counts samples/bell.img few 0 100 >"$room/counts" &&
        echo "accepted 2; refused (1, 12), (2, 12), (5, 258), (6, 12), (7, 1), (12, 3)" | diff - "$room/counts"
}

# Forty systems with promises: in those that the rules accept each message keeps its promise, and some are refused by it.
reckons_promises() {
    python3 tools/promises/systems.py reckon 40
}

# Twelve systems with message buffers.
reckons_buffers() {
    python3 tools/buffers/systems.py reckon 12
}

# The small systems of two parts, and six larger ones: each part that takes nothing does what it does alone.
reckons_parts() {
    python3 tools/parts/rows.py reckon 60 && python3 tools/parts/systems.py reckon 6
}

# Six systems with device pages, and runs in which the world errs; twenty whose threads execute such pages.
reckons_devices() {
    python3 tools/devices/systems.py reckon 6 && python3 tools/devices/hostile.py reckon 20
}

makes_crowd() {
    python3 tools/hostile/crowd.py "$room" && cmp "$room/crowd.txt" samples/hostile/crowd.txt &&
        cmp "$room/crowd.events" samples/hostile/crowd.events
}

# An image of 100 KiB that is well formed and accepted, by the rules alone.
makes_large_image() {
    python3 tools/large_images/make.py verify 232 "$room/large.img" && python3 tools/large_images/make.py count 1 "$room/count.img" &&
        PYTHONDONTWRITEBYTECODE=1 PYTHONPATH=tools/damage python3 -c '
import sys
from rules import read, well_formed
for name in sys.argv[1:]:
    with open(name, "rb") as file:
        well_formed(read(file.read()))' "$room/large.img" "$room/count.img"
}

# The gallery's key store declares what `crates/model_laws` says of it.
declares_key_store() {
    PYTHONDONTWRITEBYTECODE=1 PYTHONPATH=tools/damage python3 -c '
import re
from pathlib import Path
from rules import ALL_ONES, read
image = read(Path("samples/gallery/key_store.img").read_bytes())
said = Path("crates/model_laws/specs/GalleryKeyStore.antt").read_text(encoding="utf-8")
for name in "untypeds", "objects", "capabilities", "interrupts", "tables", "frames":
    entries = re.findall(r"record \{ (.*?) \}", re.search(rf"^  {name} =(.*?)\[\];", said, re.M | re.S).group(1))
    assert [tuple(int(field.split(" = ")[1], 0) for field in it.split("; ")) for it in entries] == image.__dict__[name], name
counts = f"untypeds = {len(image.untypeds)}; objects = {len(image.objects)}; interrupts = {len(image.interrupts)}; frames = {len(image.frames)} }}"
assert f"memory_bits = {image.bits}; boot_radix = {image.radix}; {counts}" in said
threads = [tuple(map(int, it)) for it in re.findall(r"_with = placed (\d+) (\d+) (\d+)", said)]
assert [(*it, ALL_ONES) for it in threads] == [(t.tcb, t.cnode, t.root, t.buffer) for t in image.threads], threads'
}

# Twenty texts of loops, which are texts: their images are made, apart from the product.
makes_loops() {
    mkdir "$room/loops" && python3 tools/certify/loops.py "$room/loops" 20 &&
        PYTHONDONTWRITEBYTECODE=1 PYTHONPATH=tools/traces python3 -c '
import pathlib, sys
from texts import assembled
for file in sorted(pathlib.Path(sys.argv[1]).glob("loop*.txt")):
    assert assembled(file.read_text().replace(" auto ", " 1000 "))[:4] == b"MSYS", file' "$room/loops"
}

compiles_c() {
    cc -O1 -shared -fPIC -o "$room/refuse.so" tools/memory/refuse_nth.c -ldl
}

same_calls() {
    tools/manual_rows.py >"$room/calls" && grep '^    ("' crates/kernel_tests/src/store/manual_rows.rt | diff - "$room/calls"
}

same_rows() {
    python3 tools/rv32i_table.py >"$room/table.rt" && grep '|' "$room/table.rt" >"$room/rows" &&
        grep '|' crates/kernel_tests/src/machine/table.rt | diff - "$room/rows"
}

same_words() {
    tools/instruction_table.py >"$room/words.rt" && diff crates/program_tests/src/assembling/instruction_table.rt "$room/words.rt"
}

# Documents and the program for makers name one kit.
one_kit() {
    grep -oh 'rattle-kit-[0-9a-z]* logic [0-9a-f]*' README.md docs/PROVED.md crates/tool_requests/src/words.rt >"$room/kits"
    [ "$(wc -l <"$room/kits") $(sort -u "$room/kits" | wc -l)" = "3 1" ]
}

# A script that no line names, and that no run.sh starts, would be neither run nor missed.
all_are_named() {
    local file unnamed=0
    while read -r file; do
        [ "$(head -c 3 "$file" | tr -d '\0')" = '#!/' ] || continue
        grep -qxF "$file" "$room/named" || is_started "$file" || { echo "$file: neither started nor named in tools/smoke.sh" && unnamed=1; }
    done < <(find tools -type f ! -name "*.pyc" ! -path tools/smoke.sh | sort)
    return "$unnamed"
}
is_started() {
    local beside
    beside="$(dirname "$1")/run.sh"
    [ "$1" != "$beside" ] || return 1
    grep -qF "$1" tools/*/run.sh samples/live/run.sh || { [ -f "$beside" ] && grep -qwF "$(basename "$1")" "$beside"; }
}

part_with python3 "tools, read" scripts_say_nothing
part "the kit's line" one_kit
part_with python3 "tools/checks/below.py" copies_are_whole
part_with python3 "tools/checks/texts.py --premises" tools/checks/texts.py --premises
part_with python3 "tools/checks/proved_table.py" tools/checks/proved_table.py --check
part_with python3 "tools/checks/proof_tree.py" tools/checks/proof_tree.py --check
part_with python3 "tools/checks/tool_words.py" tools/checks/tool_words.py --check
part_with python3 "tools/checks/links.py" tools/checks/links.py
part_with python3 "tools/manual_rows.py" same_calls
part_with python3 "tools/traces/reckon.py" python3 tools/traces/reckon.py compare samples/{bell,solo,worker,client_server,promise,buffers} \
    samples/gallery/controller
part_with python3 "tools/damage/reckon.py" reckons_damage
part_with python3 "tools/promises/systems.py" reckons_promises
part_with python3 "tools/buffers/systems.py" reckons_buffers
part_with python3 "tools/devices/systems.py, tools/devices/hostile.py" reckons_devices
part_with python3 "tools/parts/rows.py, tools/parts/systems.py" reckons_parts
part_with python3 "tools/python/run.sh --cheap" tools/python/run.sh --cheap
part_with python3 "tools/integrity/check.py" python3 tools/integrity/check.py write "$room/integrity"
part_with python3 "tools/hostile/crowd.py" makes_crowd
part_with python3 "tools/large_images/make.py" makes_large_image
part_with python3 "crates/model_laws/specs/GalleryKeyStore.antt" declares_key_store
part_with python3 "tools/certify/loops.py" makes_loops
part_with cc "tools/memory/refuse_nth.c" compiles_c
part_with "python3 riscv64-unknown-elf-as qemu-riscv32" "tools/rv32i_table.py" same_rows
part_with "python3 clang llvm-objcopy" "tools/instruction_table.py" same_words
part_with python3 "tools/from_c/run.sh --cheap" tools/from_c/run.sh --cheap
part_with python3 "tools/make_system/microsys_tool, make_system.py" tools/make_system/check_starter.py
part_with "make sha256sum" "tools/install/check.sh" tools/install/check.sh
part_with python3 "tools/editors/check.py" tools/editors/check.py
part_with "crates/microsys_tool/out/microsys_tool riscv64-unknown-elf-gcc python3" "tools/make_system/run.sh --cheap" \
    tools/make_system/run.sh --cheap
part_with "crates/microsys_tool/out/microsys_tool riscv64-unknown-elf-gcc python3" \
    "tools/make_system/coverage_beside.py, tools/make_system/symbols_beside.py" \
    sh -c 'tools/make_system/coverage_beside.py ring && tools/make_system/symbols_beside.py ring'
part_with "crates/microsys_tool/out/microsys_tool python3" "tools/gdb/run.sh --cheap" tools/gdb/run.sh --cheap
part_with "crates/microsys_tool/out/microsys_tool crates/microsys/out/microsys" "tools/described/run.sh" tools/described/run.sh
part_with "crates/microsys_tool/out/microsys_tool crates/microsys/out/microsys" "tools/python/run.sh" tools/python/run.sh
part_with "crates/microsys_tool/out/microsys_tool crates/microsys/out/microsys riscv64-unknown-elf-gcc" "samples/live/run.sh" \
    samples/live/run.sh
part_with crates/microsys/out/microsys "tools/failing/run.sh" tools/failing/run.sh
part_with crates/microsys_tool/out/microsys_tool "tools/explaining/check.py" tools/explaining/check.py \
    crates/microsys_tool/out/microsys_tool
skipped "takes minutes, and the built product" {bench,certify,damage,integrity,kernel_run,large_images,listing,memory,parts,report,response}/run.sh
skipped "without --cheap it takes minutes, and the built product" {from_c,gdb,make_system}/run.sh
skipped "with \`compare\` it takes minutes, and the built product" {buffers,devices,promises}/systems.py devices/hostile.py
skipped "needs valgrind, for some rustc or strace, and the built product" bench/{by_function,calls_beside,lines_beside,live_beside,memory_sizes}.py \
    certify/costs.py large_images/instructions.py
skipped "goes on as long as it is told to" from_c/{check_analysis,random_run,random_programs}.py
skipped "is no check" needs.sh checks/{lanes,libraries,module_times}.py checks/program.sh from_c/snippets/reckon.py install/{install,release}.sh \
    make_system/make_system.py
part "each script under tools/ is started or named here" all_are_named

[ "$bad" = 0 ] && echo "tools: all as expected"
[ "$bad" = 0 ]
