#!/usr/bin/env bash
# Rechunks by GNU parallel: one plan, whose lines go by fifties to the next worker that is free. All workers append to one
# file, which wants one host.
#
#     parallel_pipe.sh SOURCE TARGET ROOM
. "$(dirname "$0")/begin.sh"
status=0
head -n 1 "$room/document" | "$CHUNKPLAN" |
    parallel -q --pipe -N 50 -j "$workers" "$tools/engines/lines.sh" "$source" "$target" "$room/done.lines" || status=$?
end "$status"
