#!/usr/bin/env bash
# Makes the systems of samples/ that are descriptions too. Each is accepted, has the budgets that are found for its text, which is half
# as long again at least, and puts the bytes of its trace over the same events, with the addresses of its own device pages. Noise is
# answered in time.
# With a number N after it, N random descriptions are made.
set -u
cd "$(dirname "$0")/../.." || exit 1
tool=crates/microsys_tool/out/microsys_tool program=crates/microsys/out/microsys
room="$(mktemp -d)"
trap 'rm -rf "$room"' EXIT
bad=0

# The bytes that a trace puts.
bytes_of() {
    sed -n 's/.* byte //p' "$1"
}

for name in bell client_server gallery/controller gallery/gateway gallery/key_store; do
    system="samples/$name"
    "$tool" make "$system.sys" "$room/img" | grep ' budget ' | sort >"$room/made"
    "$tool" certify "$system.txt" "$room/txt" | sort >"$room/certified"
    "$tool" expand "$system.sys" "$room/expanded" >"$room/notes"
    tools/described/moved.py "$system.txt" "$system.img" "$room/expanded" "$room/img" <"$system.events" >"$room/events"
    "$program" verify "$room/img" && "$program" run "$room/img" "$room/events" >"$room/trace"
    if [ $((3 * $(wc -l <"$system.sys"))) -le $((2 * $(wc -l <"$system.txt"))) ] &&
        diff "$room/made" "$room/certified" && diff <(bytes_of "$room/trace") <(bytes_of "$system.trace"); then
        echo "as expected: $name"
    else
        echo "FAILED: $name"
        bad=$((bad + 1))
    fi
done
for name in promise buffers; do
    system="samples/$name"
    "$tool" make "$system.sys" "$room/img" | grep ' budget ' | sort >"$room/made"
    "$tool" certify "$system.txt" "$room/txt" | sort >"$room/certified"
    "$program" verify "$room/img" && "$program" run "$room/img" "$system.events" >"$room/trace"
    if diff "$room/made" "$room/certified" && diff <(bytes_of "$room/trace") <(bytes_of "$system.trace"); then
        echo "as expected: $name"
    else
        echo "FAILED: $name"
        bad=$((bad + 1))
    fi
done
tools/described/systems.py noise "$tool" || bad=$((bad + 1))
[ "$#" = 0 ] || tools/described/systems.py make "$tool" "$1" || bad=$((bad + 1))
exit "$bad"
