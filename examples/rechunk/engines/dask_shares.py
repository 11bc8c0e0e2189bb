#!/usr/bin/env python3
"""Does the shares of a rechunking by Dask `distributed`, on the processors of this machine; `dask.sh` calls it.

    dask_shares.py SHARES WORKERS COMMAND..

COMMAND is run with each share's number and how many there are, in a process of its own, so the cluster needs only threads. A
scheduler of your own goes in place of LocalCluster.
"""
import subprocess
import sys

from distributed import Client, LocalCluster


def run(command, share, shares):
    subprocess.run([*command, str(share), str(shares)], check=True)


def main():
    shares, workers, *command = sys.argv[1:]
    threads = {"n_workers": 1, "threads_per_worker": int(workers), "processes": False, "dashboard_address": None}
    with LocalCluster(**threads) as cluster, Client(cluster) as client:
        tasks = [client.submit(run, command, share, int(shares), pure=False) for share in range(int(shares))]
        failed = [f"share {share}: {error}" for share, error in enumerate(task.exception() for task in tasks) if error]
    sys.exit("\n".join(failed) or 0)


if __name__ == "__main__":
    main()
