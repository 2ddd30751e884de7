#!/bin/bash
# Tries the completion of nngcat's words: calls its function with the words as bash hands them over, and compares.
# The status is the number of cases that failed.
here=$(cd "$(dirname "$0")" && pwd)
source "$here/../share/nngcat.bash"
COMP_WORDBREAKS=$' \t\n"\'><=;|&(:'
folder=$(mktemp -d)
trap 'rm -rf "$folder"' EXIT
cd "$folder" || exit 1
mkdir data
touch 'a file' another data/inner
failed=0

# The words behind nngcat, the last one being completed; then --, and the answers that are wanted, in any order.
case_is() {
    local words=(nngcat)
    while [[ $# -gt 0 && $1 != -- ]]; do
        words+=("$1")
        shift
    done
    shift
    COMP_WORDS=("${words[@]}") COMP_CWORD=$((${#words[@]} - 1))
    _nngcat
    local found wanted
    found=$(printf '%s\n' "${COMPREPLY[@]}" | sort)
    wanted=$(printf '%s\n' "$@" | sort)
    if [[ $found == "$wanted" ]]; then
        echo "ok     ${words[*]}"
    else
        echo "FAILED ${words[*]}: $(printf '%q ' "${COMPREPLY[@]}")"
        failed=$((failed + 1))
    fi
}

case_is --pul -- --pull --pull0
case_is --pull0 -- --pull0
case_is --surv -- --surveyor --surveyor0
case_is --help -- --help
case_is --dr -- --drill
case_is --pull --li -- --listen
case_is --listen '' -- tcp:// ipc:// ws:// inproc://
case_is --listen t -- tcp://
case_is --listen tcp : -- //
case_is --listen tcp : // -- //
case_is --listen tcp : //127.0.0.1 --
case_is --listen tcp ://127.0.0.1 : 55 --
case_is --listen = -- tcp:// ipc:// ws:// inproc://
case_is --listen = in -- inproc://
case_is --listen = ip -- ipc://
case_is --dial = t -- tcp://
case_is --dial = tcp : -- //
case_is --dial tcp : -- //
case_is --file '' -- 'a file' another data
case_is --file a -- 'a file' another
case_is --file 'a f' -- 'a file'
case_is --file 'a\ f' -- 'a file'
case_is --file '"a f' -- 'a file'
case_is --file d -- data
case_is --file data/ -- data/inner
case_is --file = -- 'a file' another data
case_is --file = an -- another
case_is --file = data/i -- data/inner
case_is --data --pul --
case_is --data = x --
case_is --count '' --
case_is --data = x --pul -- --pull --pull0
case_is --listen tcp : //127.0.0.1 : 5555 --asc -- --ascii
COMP_WORDBREAKS=$' \t\n"\'><;|&('
case_is --file=an -- --file=another
case_is --listen=t -- --listen=tcp://
case_is --listen tcp: -- tcp://
exit $failed
