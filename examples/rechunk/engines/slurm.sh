#!/usr/bin/env bash
# Rechunks by an array job of Slurm: tasks that plan a share each. It waits for all of them.
#
#     slurm.sh SOURCE TARGET ROOM
. "$(dirname "$0")/begin.sh"
status=0
sbatch --wait --array="0-$((shares - 1))%$workers" --output="$room/log.%a" --open-mode=append --no-requeue --wrap \
    "$(printf '%q ' "$tools/engines/share.sh" "$source" "$target" "$room") \$SLURM_ARRAY_TASK_ID $shares" || status=$?
[ "$status" -eq 0 ] || cat "$room"/log.* >&2
end "$status"
