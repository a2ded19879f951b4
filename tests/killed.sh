#!/usr/bin/env bash
# Kills the program while it works scripts, opens the file again each time, and compares it with a plain table.
#
#     tests/killed.sh PROGRAM [RUNS [SEED]]
#
# Run by hand; needs bash and python3 alone. PROGRAM is the built program or ./grid, RUNS is 200 unless it is given, and
# SEED, 1 unless it is given, chooses the scripts and the moments. In a folder of its own, which it removes, it makes one
# file and starts RUNS scripts of some thousands of puts, removes and checkpoints over it. About half of them end by
# themselves, and all that they print is compared. The others are killed by SIGKILL at a random moment. After each the
# file is opened by a listing, which is killed itself now and then and then made again: the front and the rows must be
# those of the plain table after a first part of the updates that were sent, and nothing that was printed may be missing.
# The last line is a summary, and the status is 1 if anything was wrong; the folder is then kept.
#
# It stops a process and no machine: what the system was given to write stays. A crash of the machine is what the proofs
# and the tests over disks in memory speak of. Most of the time is the disk's: where TMPDIR is a file system in memory,
# as TMPDIR=/dev/shm, 200 runs take minutes.
set -euo pipefail
here=$(cd "$(dirname "${BASH_SOURCE[0]}")" && pwd)
program=$(readlink -f "${1:?usage: tests/killed.sh PROGRAM [RUNS [SEED]]}")
folder=$(mktemp -d)
python3 "$here/killed.py" "$program" "$folder" "${2:-200}" "${3:-1}" || {
  echo "killed.sh: the file and the last script are kept in $folder" >&2
  exit 1
}
rm -rf "$folder"
