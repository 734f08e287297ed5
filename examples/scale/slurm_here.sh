#!/usr/bin/env bash
# slurm_here.sh start FOLDER NODES: starts a Slurm of its own on this machine, with NODES nodes of one processor each, and
# prints the line that has sbatch find it. FOLDER holds all that it writes, and its whole path has at most 80 characters.
# slurm_here.sh stop FOLDER: ends what was started, and removes FOLDER.
set -eu

# The network's ports of the controller, and from the next one on of the nodes.
port=${SLURM_PORT:-26817}

usage() {
  sed -n '2,/^[^#]/s/^# \{0,1\}//p' "$0" >&2
  exit 6
}

configuration() {
  cat << END
ClusterName=here
SlurmctldHost=$(hostname -s)(127.0.0.1)
SlurmUser=$(id -un)
SlurmdUser=$(id -un)
AuthType=auth/munge
# A task that was running on a node that died waits this many seconds before it starts again (120 otherwise).
AuthInfo=socket=$folder/munge.socket,cred_expire=10
StateSaveLocation=$folder/state
SlurmctldPidFile=$folder/slurmctld.pid
SlurmctldLogFile=$folder/slurmctld.log
SlurmctldPort=$port
SlurmdSpoolDir=$folder/spool.%n
SlurmdPidFile=$folder/%n.pid
SlurmdLogFile=$folder/%n.log
# No control groups, accounting or message passing.
ProctrackType=proctrack/linuxproc
TaskPlugin=task/none
JobAcctGatherType=jobacct_gather/none
AccountingStorageType=accounting_storage/none
SwitchType=switch/none
MpiDefault=none
SelectType=select/cons_tres
SelectTypeParameters=CR_CPU
# Tasks are short: the next one starts within a second (3 otherwise), and a node that has died is missed soon.
SchedulerParameters=batch_sched_delay=0
SlurmdTimeout=10
ReturnToService=2
MaxArraySize=10001
MaxJobCount=20000
NodeName=node[1-$nodes] NodeHostname=$(hostname -s) NodeAddr=127.0.0.1 Port=$((port + 1))-$((port + nodes)) CPUs=1 State=UNKNOWN
PartitionName=all Nodes=ALL Default=YES MaxTime=INFINITE State=UP
END
}

start() {
  local number tries=0
  mkdir "$folder" "$folder/state"
  (umask 077 && head -c 1024 /dev/urandom > "$folder/munge.key")
  export SLURM_CONF=$folder/slurm.conf
  configuration > "$SLURM_CONF"
  # As root munged warns of being root, and goes on with --force.
  munged --force --key-file="$folder/munge.key" --socket="$folder/munge.socket" --pid-file="$folder/munged.pid" \
    --log-file="$folder/munged.log" --seed-file="$folder/munge.seed" 2> "$folder/munged.said"
  slurmctld
  for number in $(seq "$nodes"); do
    mkdir "$folder/spool.node$number"
    slurmd -N "node$number"
  done
  until [ "$(sinfo -h -t idle -o %D 2> /dev/null)" = "$nodes" ]; do
    tries=$((tries + 1))
    [ "$tries" -lt 100 ] || { echo "Slurm doesn't start: look at $folder/*.log" >&2; exit 5; }
    sleep 0.2
  done
  echo "export SLURM_CONF=$SLURM_CONF"
}

stop() {
  local file
  SLURM_CONF=$folder/slurm.conf scancel -u "$(id -un)" 2> /dev/null || true
  for file in "$folder"/node*.pid "$folder/slurmctld.pid" "$folder/munged.pid"; do
    [ ! -s "$file" ] || kill "$(cat "$file")" 2> /dev/null || true
  done
  # Each removes its own file when it has ended.
  for _ in $(seq 50); do
    [ -n "$(find "$folder" -maxdepth 1 -name '*.pid')" ] || break
    sleep 0.2
  done
  rm -rf "$folder"
}

case "$#${1:-}" in
  3start)
    mkdir -p "$(dirname "$2")"
    folder=$(realpath -m -- "$2") nodes=$3
    start ;;
  2stop)
    folder=$(realpath -- "$2")
    [ -f "$folder/slurm.conf" ] || usage
    stop ;;
  *) usage ;;
esac
