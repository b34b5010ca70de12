# shellcheck shell=bash
# What the scripts of .ci share that try a program: sourced with $what, the word with which lines begin. It makes the folder
# $scratch, which goes at the end, and the status $wrong.
set -u
# shellcheck disable=SC2034  # for the scripts that source this file
top=$(cd "$(dirname "${BASH_SOURCE[0]}")/.." && pwd)
scratch=$(mktemp -d)
trap 'rm -rf "$scratch"' EXIT
# shellcheck disable=SC2034
wrong=0

# fault TEXT: says that something isn't as it should be.
fault() {
    echo "${what:?}: $1"
    # shellcheck disable=SC2034
    wrong=1
}

# expect STATUS NAME COMMAND ..: the command ends with this status; its output is kept in $scratch/said.
expect() {
    local wanted=$1 name=$2
    shift 2
    "$@" >"$scratch/said" 2>&1 </dev/null
    local status=$?
    if [ "$status" -ne "$wanted" ]; then
        fault "$name: status $status, not $wanted"
        cat "$scratch/said"
    fi
    ! grep -q '^Traceback' "$scratch/said" || { fault "$name: a traceback"; cat "$scratch/said"; }
}

# said TEXT, unsaid TEXT: the last command said this, or didn't. holds FILE FILTER: so does a file of the last report, for jq.
said() {
    grep -qF -- "$1" "$scratch/said" || { fault "it doesn't say: $1"; cat "$scratch/said"; }
}
unsaid() {
    ! grep -qF -- "$1" "$scratch/said" || { fault "it says: $1"; cat "$scratch/said"; }
}
holds() {
    jq -e "$2" "groot-report/$1" >/dev/null || fault "$1 isn't as it should be: $2"
}

# need_full_device: ends the script if /dev/full is no device, since then a case that writes to it says nothing.
need_full_device() {
    if [ ! -c /dev/full ]; then
        echo "$what: /dev/full is no device here, so the cases that write to it say nothing: make it anew (mknod -m 666 /dev/full c 1 7)" >&2
        exit 2
    fi
}

# make_repository NAME: the repository of an operator: the example's configuration, as it stands and as it is printed, its zone
# file, and no fault that is known. The working folder is its top.
make_repository() {
    repository=$scratch/$1
    mkdir -p "$repository/etc/bind/zones" "$repository/ci"
    cd "$repository" || exit 2
    cp "$top/examples/own-servers/named.conf" etc/bind/
    cp "$top/examples/own-servers/zones/example.com.zone" etc/bind/zones/
    cp etc/bind/named.conf ci/named.printed
    cp "$top/examples/own-servers/report.json" ci/known.json
}

# install_programs PROGRAM: puts the programs of an install on the path: groot, and the scripts. groot-map has to be there.
install_programs() {
    if ! command -v groot-map >/dev/null || ! groot-map 2>&1 | grep -qw servers; then
        echo "$what: needs groot-map with its command servers on the path (./build makes it)" >&2
        exit 2
    fi
    mkdir -p "$scratch/bin"
    ln -s "$(realpath "$1")" "$scratch/bin/groot"
    ln -s "$top/tools/gate" "$scratch/bin/groot-gate"
    ln -s "$top/tools/metadata" "$scratch/bin/groot-metadata"
    ln -s "$top/tools/changed" "$scratch/bin/groot-changed"
    ln -s "$top/tools/changes" "$scratch/bin/groot-changes"
    PATH=$scratch/bin:$PATH:/usr/sbin
}
