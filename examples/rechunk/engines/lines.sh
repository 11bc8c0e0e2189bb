#!/usr/bin/env bash
# The task of an engine that hands lines out: does those of standard input. What a run before did of them is passed over.
#
#     lines.sh SOURCE TARGET DONE
set -euo pipefail
tools=$(realpath "$(dirname "${BASH_SOURCE[0]}")/..")
read -ra region <<< "$REGION"
read -ra words <<< "$WORDS"
"$PYTHON" "$tools/copy_chunks.py" "$1" "$2" "${region[@]}" "${words[@]}" --done "$3" --resume "$3" > /dev/null
