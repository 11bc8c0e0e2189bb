#!/usr/bin/env bash
# Starts a Slurm of one node, this machine, in a folder; wants root, and Debian's slurm-wlm and munge.
#
#     slurm_up.sh FOLDER
#
# FOLDER/slurm.conf is its configuration, for SLURM_CONF, and FOLDER/pids has the processes, for whoever ends it.
set -eu
folder=$(realpath "$1")
chmod 755 "$folder"
mkdir -p "$folder/state" "$folder/spool"
install -d -o munge -g munge -m 755 "$folder/munge"
dd if=/dev/urandom of="$folder/munge/key" bs=1024 count=1 2> "$folder/dd.log"
chown munge:munge "$folder/munge/key"
chmod 400 "$folder/munge/key"
runuser -u munge -- munged --key-file="$folder/munge/key" --socket="$folder/munge/socket" --pid-file="$folder/munge/pid" \
    --log-file="$folder/munge/log" --seed-file="$folder/munge/seed"
cat > "$folder/slurm.conf" << END
ClusterName=one
SlurmctldHost=$(hostname)(127.0.0.1)
SlurmctldPort=16817
SlurmdPort=16818
SlurmUser=root
AuthInfo=socket=$folder/munge/socket
StateSaveLocation=$folder/state
SlurmdSpoolDir=$folder/spool
SlurmctldPidFile=$folder/slurmctld.pid
SlurmdPidFile=$folder/slurmd.pid
SlurmctldLogFile=$folder/slurmctld.log
SlurmdLogFile=$folder/slurmd.log
ProctrackType=proctrack/linuxproc
TaskPlugin=task/none
MpiDefault=none
SelectType=select/cons_tres
SelectTypeParameters=CR_CPU
SchedulerParameters=sched_interval=1,batch_sched_delay=0
ReturnToService=2
MinJobAge=2
NodeName=$(hostname) NodeAddr=127.0.0.1 CPUs=4
PartitionName=all Nodes=ALL Default=YES MaxTime=INFINITE State=UP
END
export SLURM_CONF=$folder/slurm.conf
slurmctld
slurmd
for _ in $(seq 50); do
    if sinfo -h -t idle 2> "$folder/sinfo.log" | grep -q idle; then
        cat "$folder/slurmd.pid" "$folder/slurmctld.pid" "$folder/munge/pid" > "$folder/pids"
        exit 0
    fi
    sleep 0.2
done
echo "Slurm isn't up: see $folder/*.log" >&2
exit 1
