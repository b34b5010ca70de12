#!/usr/bin/env bash
# Tries tools/split, tools/job and tools/jobs on a drawn network: parts.sh GROOT-LARGE GROOT-PARTS GROOT-MAP
#
# The jobs run under xargs, and under GNU parallel and Slurm where they are installed (Debian: parallel, slurm-wlm and munge; for
# Slurm as root, as its daemons are started here); what isn't is said. With --need-all as a further word that is a failure. Ends with
# status 1 if a step ends in another way than it should.
what=parts
# shellcheck source=.ci/expect.sh
. "$(dirname "$0")/expect.sh"
mkdir "$scratch/bin"
ln -s "$(realpath "$1")" "$scratch/bin/groot-large"
ln -s "$(realpath "$2")" "$scratch/bin/groot-parts"
ln -s "$(realpath "$3")" "$scratch/bin/groot-map"
ln -s "$top/tools/split" "$scratch/bin/groot-split"
ln -s "$top/tools/jobs" "$scratch/bin/groot-jobs"
PATH=$scratch/bin:$PATH:/usr/sbin
need_all=${4:-}

# passed_over TEXT: says what isn't tried.
passed_over() {
    echo "parts: $1"
    [ "$need_all" != --need-all ] || wrong=1
}

cd "$scratch" || exit 2
mkdir "a network"
python3 -c 'import sys; sys.path.insert(0, sys.argv[1]); from parts import Network; Network(int(sys.argv[2])).write("a network")' "$top/bench" 11
net="a network/meta.json"
groot-large check "$net" >whole.json
whole=$?
[ $whole -eq 1 ] || fault "the drawn network has the status $whole, and 1 is wanted"

# whole NAME COMMAND ..: the command prints what groot-large check prints of the whole, with its status.
whole() {
    local name=$1
    shift
    "$@" >merged.json 2>"$scratch/said" </dev/null
    local status=$?
    if [ $status -ne 1 ] || ! cmp -s merged.json whole.json; then
        fault "$name: status $status, or another report"
        cat "$scratch/said"
    fi
}

# A groot-parts whose job is killed at its first run of the second part, before it writes a line.
cat >"$scratch/bin/killing" <<'END'
#!/bin/sh
case $3 in
*0002.names) [ -e killed ] || { : >killed; kill -9 $PPID; exit 1; } ;;
esac
exec groot-parts "$@"
END
# One that waits.
cat >"$scratch/bin/waiting" <<'END'
#!/bin/sh
[ "$1" = merge ] || sleep 60
exec groot-parts "$@"
END
chmod +x "$scratch/bin/killing" "$scratch/bin/waiting"

# 1. Splits, and files that differ from those that were split.
expect 0 "a split" groot-split "$net" parts --parts 3
expect 0 "a split of a few records each" groot-split "$net" "small parts" --records 4
[ -e "small parts/0004.names" ] || fault "parts of four records are fewer than four"
expect 2 "no part" groot-split "$net" parts --parts 0
expect 2 "no groot-map" groot-split "$net" parts --map "$scratch/none"
expect 5 "no metadata" groot-split none.json parts
expect 2 "a folder without files of names" groot-jobs "$net" "a network"
said "groot-split writes them"
expect 2 "no folder" groot-jobs "$net" none
said "groot-split writes them"
expect 2 "an option that isn't there" groot-jobs "$net" parts --engines
cp "a network/0.zone" kept.zone
echo '; a line more' >>"a network/0.zone"
expect 5 "a file that changed" groot-jobs "$net" parts
said "0.zone: FAILED"
said "split it anew"
expect 1 "a job over a file that changed" "$top/tools/job" "$net" parts/0001.names
if ! grep -q FAILED parts/0001.err || [ "$(cat parts/0001.status)" != 5 ]; then
    fault "a job doesn't say that a file changed"
fi
cp kept.zone "a network/0.zone"

# tried ENGINE OPTION ..: what holds of every engine.
tried() {
    local engine=$1
    shift
    whole "$engine" groot-jobs "$net" parts --engine "$engine" "$@"
    whole "$engine, small parts" groot-jobs "$net" "small parts" --engine "$engine" "$@"
    rm -f killed
    whole "a job that is killed under $engine" env GROOT_PARTS=killing groot-jobs "$net" parts --engine "$engine" "$@"
    said "parts/0002.names: its job was killed, or never ran"
    said "1 of 3 parts are started again"
    cp parts/0002.names kept.names
    sed -i '/^keep/d' parts/0002.names
    expect 3 "a part that is spoilt" groot-jobs "$net" parts --engine "$engine" "$@"
    said "parts/0002.names: status 3: parts/0002.names:0: "
    unsaid "started again"
    cp kept.names parts/0002.names
    whole "$engine starts what was spoilt" groot-jobs --resume "$net" parts --engine "$engine" "$@"
}

# 2. Jobs of this machine.
tried xargs --at-once 2
rm -f killed
expect 5 "a killed job that isn't started again" env GROOT_PARTS=killing groot-jobs "$net" parts --tries 1
said "1 of 3 parts have no report, so nothing is merged"
[ ! -e parts/0002.report ] || fault "the report of an earlier run is left of a job that was killed"
expect 5 "reports that are there, but for one" groot-jobs --tries 0 "$net" parts
said "parts/0002.names: its job was killed, or never ran"
whole "the part that is missing" groot-jobs --resume "$net" parts
whole "reports that are there" groot-jobs --tries 0 "$net" parts
expect 4 "an option of groot-parts" groot-jobs "$net" parts -- --classes 1
said "classes: more than 1"
unsaid "started again"
expect 2 "a wrong option of groot-parts" groot-jobs "$net" parts -- --class 1
said "usage: groot-parts"
unsaid "started again"
if command -v parallel >/dev/null && parallel --version 2>/dev/null | grep -q "GNU parallel"; then
    tried parallel --at-once 2
    [ "$(wc -l <parts/log)" -ge 2 ] || fault "GNU parallel leaves no log of its jobs"
else
    passed_over "GNU parallel isn't installed (Debian: parallel), so no job runs under it"
fi

# until_there COMMAND ..: waits until the command is true, at most a minute.
until_there() {
    for _ in $(seq 60); do
        ! "$@" || return 0
        sleep 1
    done
    fault "nothing comes of: $*"
}
GROOT_PARTS=waiting groot-jobs "$net" parts >merged.json 2>"$scratch/said" </dev/null &
waiting=$!
until_there test -e parts/0001.new
kill $waiting
wait $waiting
status=$?
[ $status -eq 143 ] || fault "groot-jobs that is told to end: status $status, not 143"
said "told to end"

# 3. Slurm: munge and the two daemons, on the address of this machine alone, with ports that are free.
start_slurm() {
    local folder=$scratch/slurm name ports
    name=$(hostname -s)
    ports=$(python3 -c 'import socket
s = [socket.socket() for _ in "ab"]
for one in s: one.bind(("127.0.0.1", 0))
print(*(one.getsockname()[1] for one in s))')
    mkdir -m 755 "$folder" "$folder/state" "$folder/spool"
    mungekey --create --keyfile="$folder/key" || return 1
    munged --foreground --force --key-file="$folder/key" --socket="$folder/socket" --pid-file="$folder/munged.pid" --log-file="$folder/munged.log" \
        --seed-file="$folder/seed" >"$folder/munged.out" 2>&1 &
    daemons=$!
    cat >"$folder/slurm.conf" <<END
ClusterName=parts
SlurmctldHost=$name(127.0.0.1)
SlurmUser=root
SlurmdUser=root
AuthType=auth/munge
AuthInfo=socket=$folder/socket
SlurmctldPort=${ports% *}
SlurmdPort=${ports#* }
StateSaveLocation=$folder/state
SlurmdSpoolDir=$folder/spool
SlurmctldPidFile=$folder/slurmctld.pid
SlurmdPidFile=$folder/slurmd.pid
SlurmctldLogFile=$folder/slurmctld.log
SlurmdLogFile=$folder/slurmd.log
ProctrackType=proctrack/linuxproc
TaskPlugin=task/none
JobAcctGatherType=jobacct_gather/none
AccountingStorageType=accounting_storage/none
SelectType=select/cons_tres
SelectTypeParameters=CR_Core_Memory
DefMemPerNode=100
ReturnToService=2
MpiDefault=none
JobRequeue=0
NodeName=$name NodeAddr=127.0.0.1 CPUs=4 Boards=1 SocketsPerBoard=1 CoresPerSocket=4 ThreadsPerCore=1 RealMemory=1000 State=UNKNOWN
PartitionName=all Nodes=$name Default=YES MaxTime=INFINITE State=UP
CommunicationParameters=NoInAddrAny,NoCtldInAddrAny
END
    export SLURM_CONF=$folder/slurm.conf
    slurmctld -D >"$folder/slurmctld.out" 2>&1 &
    daemons="$daemons $!"
    slurmd -D -N "$name" >"$folder/slurmd.out" 2>&1 &
    daemons="$daemons $!"
    for _ in $(seq 60); do
        [ "$(sinfo -h -o %t 2>/dev/null)" != idle ] || return 0
        sleep 1
    done
    return 1
}
if ! command -v sbatch slurmctld slurmd munged >/dev/null; then
    passed_over "Slurm isn't installed (Debian: slurm-wlm, munge), so no job runs under it"
elif [ "$(id -u)" -ne 0 ]; then
    passed_over "Slurm's daemons are started by root alone, so no job runs under it"
elif ! start_slurm; then
    fault "Slurm doesn't start"
    tail -n 5 "$scratch"/slurm/*.log "$scratch"/slurm/*.out
else
    # shellcheck disable=SC2317  # they are called by their names
    runs() { squeue -h -t R -o %K | grep -q 1; }
    # shellcheck disable=SC2317
    is_empty() { [ -z "$(squeue -h)" ]; }
    tried slurm
    GROOT_PARTS=waiting groot-jobs "$net" parts --engine slurm --at-once 1 --tries 1 >merged.json 2>"$scratch/said" </dev/null &
    waiting=$!
    until_there runs
    scancel --user=root
    wait $waiting
    status=$?
    [ $status -eq 5 ] || fault "jobs that are cancelled: status $status, not 5"
    said "parts/0001.names: its job was killed, or never ran"
    said "3 of 3 parts have no report, so nothing is merged"
    GROOT_PARTS=waiting groot-jobs "$net" parts --engine slurm --memory 100 >merged.json 2>"$scratch/said" </dev/null &
    waiting=$!
    until_there runs
    kill $waiting
    wait $waiting
    until_there is_empty
fi
if [ -n "${daemons:-}" ]; then
    # shellcheck disable=SC2086
    kill $daemons
    wait
fi
[ $wrong -ne 0 ] || echo "parts: networks are split, checked by jobs and merged, as it should be"
exit $wrong
