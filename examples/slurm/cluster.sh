#!/usr/bin/env bash
# Starts and ends a Slurm of four nodes on this one machine, to try submit.sh.
set -eu
usage() {
  cat << 'END'
cluster.sh start DIR     makes DIR and starts a Slurm in it: munged, slurmctld, four slurmd; prints the SLURM_CONF to use
cluster.sh stop DIR      ends them (by the ids that they wrote)
cluster.sh kill DIR N    waits, a minute at most, until a step runs on node N (1 to 4), and kills the node with all that runs on it,
                         as a power failure would
cluster.sh back DIR N    starts node N again

For tests only: it runs as root, on ports 17000 to 17004, and a user who submits to it is root. Stop it afterwards. Debian: slurm-wlm, munge.
END
}
[ "${1:---help}" != --help ] || { usage; exit 0; }
[ $# -ge 2 ] || { usage >&2; exit 2; }
verb=$1
mkdir -p "$2"
dir=$(readlink -f -- "$2")
export SLURM_CONF=$dir/etc/slurm.conf
host=$(hostname -s)

write_conf() {
  mkdir -p "$dir"/{etc,log,spool,state}
  mkdir -p "$dir/munge"
  chmod 711 "$dir/munge"
  (umask 077 && head -c 128 /dev/urandom > "$dir/munge/key")
  cat > "$SLURM_CONF" << END
ClusterName=tried
SlurmctldHost=$host(127.0.0.1)
SlurmUser=root
SlurmdUser=root
AuthType=auth/munge
AuthInfo=socket=$dir/munge/sock
CredType=cred/munge
SlurmctldPort=17000
SlurmctldPidFile=$dir/state/ctld.pid
SlurmctldLogFile=$dir/log/ctld.log
StateSaveLocation=$dir/state
SlurmdPidFile=$dir/state/%n.pid
SlurmdLogFile=$dir/log/%n.log
SlurmdSpoolDir=$dir/spool/%n
ProctrackType=proctrack/linuxproc
TaskPlugin=task/none
JobAcctGatherType=jobacct_gather/none
AccountingStorageType=accounting_storage/none
JobCompType=jobcomp/filetxt
JobCompLoc=$dir/log/jobs.txt
SelectType=select/cons_tres
SelectTypeParameters=CR_CPU
SchedulerType=sched/backfill
SchedulerParameters=batch_sched_delay=0,sched_interval=2,bf_interval=2,sched_min_interval=0
MpiDefault=none
SwitchType=switch/none
MailProg=/bin/true
ReturnToService=2
SlurmdParameters=config_overrides
SlurmctldTimeout=30
SlurmdTimeout=10
KillWait=5
InactiveLimit=0
MinJobAge=3600
MaxArraySize=1001
JobRequeue=1
NodeName=n1 NodeHostname=$host NodeAddr=127.0.0.1 Port=17001 CPUs=1 RealMemory=1000
NodeName=n2 NodeHostname=$host NodeAddr=127.0.0.1 Port=17002 CPUs=1 RealMemory=1000
NodeName=n3 NodeHostname=$host NodeAddr=127.0.0.1 Port=17003 CPUs=1 RealMemory=1000
NodeName=n4 NodeHostname=$host NodeAddr=127.0.0.1 Port=17004 CPUs=1 RealMemory=1000
PartitionName=all Nodes=n[1-4] Default=YES MaxTime=INFINITE State=UP
END
}

case $verb in
  start)
    write_conf
    munged --key-file="$dir/munge/key" --socket="$dir/munge/sock" --pid-file="$dir/munge/pid" --log-file="$dir/munge/log" --seed-file="$dir/munge/seed"
    slurmctld -f "$SLURM_CONF"
    for node in 1 2 3 4; do slurmd -N "n$node" -f "$SLURM_CONF"; done
    for _ in $(seq 60); do
      [ "$(sinfo -h -t idle -o %D 2> /dev/null)" = 4 ] && { echo "export SLURM_CONF=$SLURM_CONF"; exit 0; }
      sleep 0.5
    done
    echo "cluster.sh: the nodes are not ready; see $dir/log" >&2
    exit 1
    ;;
  stop)
    for file in "$dir"/state/n?.pid "$dir/state/ctld.pid" "$dir/munge/pid"; do
      [ -s "$file" ] || continue
      id=$(cat "$file")
      kill "$id" 2> /dev/null || continue
      for _ in $(seq 40); do kill -0 "$id" 2> /dev/null || break; sleep 0.25; done
    done
    ;;
  kill)
    # waits until navbridge or its script is at work on the node, and ends the daemon, what runs the steps, and the steps, at once
    python3 - "$(cat "$dir/state/n$3.pid")" "n$3" << 'END'
import os, sys, time

daemon, node = int(sys.argv[1]), sys.argv[2].encode()

def read(id, what):
    try:
        with open(f"/proc/{id}/{what}", "rb") as file:
            return file.read()
    except OSError:
        return b""

until, work, steps = time.monotonic() + 60, [], []
while not work and time.monotonic() < until:
    time.sleep(0.02)
    steps = [int(id) for id in os.listdir("/proc") if id.isdigit() and b"SLURMD_NODENAME=" + node in read(id, "environ").split(b"\0")]
    work = [name for name in (read(id, "comm").decode().strip() for id in steps) if name in ("navbridge", "python3")]
parents = {int(read(id, "stat").rpartition(b")")[2].split()[1]) for id in steps if read(id, "stat")}
runners = [id for id in parents if read(id, "cmdline").startswith(b"slurmstepd:")]
for id in [daemon, *runners, *steps]:
    try:
        os.kill(id, 9)
    except ProcessLookupError:
        pass
print(f"node {node.decode()} is gone, with {len(runners)} step and {len(steps)} processes of it, at work: {', '.join(sorted(set(work))) or 'nothing'}")
END
    ;;
  back) slurmd -N "n$3" -f "$SLURM_CONF" ;;
  *) usage >&2; exit 2 ;;
esac
