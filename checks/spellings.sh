#!/usr/bin/env bash
# Rewrites command lines of NNG's tutorials and manual, and compares them with ours. Its status is how many differ.
cd "$(dirname "$0")/.." || exit 1
wrong=0

# What the words behind `is` are rewritten to; a line that can't be is `refused`.
is() {
    local want=$1 got
    shift
    got=$(SHOW=1 share/nngcat-1.x "$@" 2>/dev/null | tr '\n' ' ') || got=refused
    [[ $got == refused || -n $got ]] || got=refused
    [[ ${got% } == "$want" ]] || { echo "FAIL $*: ${got% }, and not $want"; wrong=$((wrong + 1)); }
}

is '--req --dial tcp://127.0.0.1:8000 --data hello' --req --dial tcp://127.0.0.1:8000 --data hello
is '--rep --listen tcp://127.0.0.1:8000 --data 42 --quoted' --rep --listen tcp://127.0.0.1:8000 --data 42 --quoted
is '--pub0 --interval 1 --listen tcp://*:4567 --data x' --pub0 -i 1 --bind tcp://*:4567 -D x
is '--listen tcp://*:1 --pub --data news' --listen tcp://*:1 --pub -Dnews
is '--sub --dial tcp://127.0.0.1:4567 --subscribe a --ascii' --sub -l 4567 --subscribe a -A
is '--pull --listen tcp://127.0.0.1:5555 --ascii --count 3' --pull -L 5555 -A -C3
is '--pull --dial tcp://127.0.0.1:1 --hex' --pull --connect=tcp://127.0.0.1:1 --format hex -q -v
is '--pull --dial tcp://127.0.0.1:1' --pull --connect:tcp://127.0.0.1:1 --format no --async --silent
is '--push --dial tcp://127.0.0.1:1 --file -' --push --dial tcp://127.0.0.1:1 -F -
is '--pull --listen ipc:///tmp/a' --pull -X /tmp/a
is '--push --dial ipc://a --data x' --push --connect-ipc=a -Dx
is '--pull --listen ipc:///tmp/a --dial ipc://b' --pull --bind-ipc /tmp/a -xb
is '--pair0 --dial tcp://127.0.0.1:1 --recv-timeout 5 --msgpack' --pair0 --dial tcp://127.0.0.1:1 --recv-t 5 --msg
is '--surveyor --listen tcp://127.0.0.1:1 --data who --quoted' --surveyor --listen tcp://127.0.0.1:1 --data who -Q
is '--bus --listen tcp://127.0.0.1:1 --data a=b' --bus --listen tcp://127.0.0.1:1 --data=a=b
is refused --pull --delay 1 --dial tcp://127.0.0.1:1
is refused --pull --compat --dial tcp://127.0.0.1:1
is '--pull --recv-max 100 --dial tcp://127.0.0.1:1' --pull -Z 100 --dial tcp://127.0.0.1:1
is '--pair1 --dial tcp://127.0.0.1:1' --pair1 --dial tcp://127.0.0.1:1
is '--pair1 --dial tcp://127.0.0.1:1' --pair --dial tcp://127.0.0.1:1
is refused --p --dial tcp://127.0.0.1:1
is refused --pull --nothing
is refused --pull --format none --dial tcp://127.0.0.1:1
is refused --pull --dial
((wrong)) || echo "ok   spellings of NNG's own nngcat"
exit $wrong
