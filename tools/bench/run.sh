#!/usr/bin/env bash
# Measures the interpreter and the table of slots. The programs are proved and built in a copy of the
# repository, so that the gate knows nothing of them. Takes some minutes the first time.
set -e
here=$(cd "$(dirname "$0")" && pwd)
copy=$(mktemp -d)
trap 'rm -rf "$copy"' EXIT
cp -r "$here/../../." "$copy"
rm -rf "$copy/.git" "$copy/tools"
git -C "$copy" init -q
for name in exec_bench store_bench lookup_bench revoke_bench kernel_bench crowd_bench; do
    mkdir -p "$copy/crates/$name/src"
    cp "$here/$name.rt.in" "$copy/crates/$name/src/main.rt"
done
mkdir -p "$copy/crates/lookup_bench/proofs/sample"
cp "$here/lookup_bench.sample.antt.in" "$copy/crates/lookup_bench/proofs/sample/Answers.antt"
cat >>"$copy/crates.txt" <<'LIST'
exec_bench: model rv32_isa rv32_exec
store_bench: model slots
lookup_bench: model slots cspace
revoke_bench: model kernel kernel_machine
kernel_bench: model kernel kernel_machine
crowd_bench: model kernel user_memory
LIST
for name in exec_bench store_bench lookup_bench revoke_bench kernel_bench crowd_bench; do
    (cd "$copy/crates/$name" && rt run >"$copy/$name.log" 2>&1)
done
echo "100 million instructions, proved:"
time -p "$copy/crates/exec_bench/out/exec_bench"
if command -v rustc >/dev/null; then
    rustc -O -o "$copy/exec_plain" "$here/exec_plain.rs"
    echo "the same in plain Rust:"
    time -p "$copy/exec_plain"
fi
for word in new insert; do
    echo "2^20 slots, $word:"
    python3 -c '
import resource, subprocess, sys, time
start = time.monotonic()
subprocess.run(sys.argv[1:], check=True)
peak = resource.getrusage(resource.RUSAGE_CHILDREN).ru_maxrss
print(round(time.monotonic() - start, 3), "s,", peak, "KiB at most")' \
        "$copy/crates/store_bench/out/store_bench" "$word"
done
echo "100 million look-ups through one CNode:"
time -p "$copy/crates/lookup_bench/out/lookup_bench"
if command -v rustc >/dev/null; then
    rustc -O -o "$copy/revoke_plain" "$here/revoke_plain.rs"
fi
for bits in 19 20 22; do
    for shape in chains fan; do
        echo "Revoke of 10,000 capabilities, $shape, memory of 2^$bits bytes:"
        time -p "$copy/crates/revoke_bench/out/revoke_bench" "$shape" "$bits"
        if [ -x "$copy/revoke_plain" ]; then
            echo "the same in plain Rust:"
            time -p "$copy/revoke_plain" "$shape" "$bits"
        fi
    done
done
if command -v valgrind >/dev/null; then
    "$here/revoke_instructions.sh" "$copy/crates/revoke_bench/out/revoke_bench"
    "$here/crowd_instructions.sh" "$copy/crates/crowd_bench/out/crowd_bench"
fi
for case in count memory calls lines crowd; do
    for bits in 16 24; do
        echo "10 million events of the kernel, $case, memory of 2^$bits bytes:"
        time -p "$copy/crates/kernel_bench/out/kernel_bench" "$case" "$bits"
    done
done
