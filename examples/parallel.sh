#!/usr/bin/env bash
# Checks a layout of the examples by four shares of its columns side by side, stitches their parts, and compares the markers with
# those of one check. It takes GNU parallel.
#
#   examples/parallel.sh [NAME]      NAME.gds under NAME.deck; pad-ring where none is given
#
# The exit status is 0 where both are the same.
set -euo pipefail
here=$(cd "$(dirname "$0")" && pwd)
export mpw=${here%/*}/mpw name=$here/${1-pad-ring} parts
parts=$(mktemp -d)
trap 'rm -r "$parts"' EXIT

# Status 1 says that there are markers, and is no fault.
or_markers() { "$@" || [ $? = 1 ]; }
check() { or_markers "$mpw" check --deck "$name.deck" --top TOP "$@" "$name.gds"; }
check_share() { check --tiles "$1/4" > "$parts/$1"; }
export -f or_markers check check_share

# The program is built here, where it isn't yet, and not by each of the four.
check > "$parts/whole"
SHELL=$BASH parallel --jobs 4 --halt now,fail=1 check_share ::: 1 2 3 4
or_markers "$mpw" stitch "$parts"/[1-4] > "$parts/stitched"
diff "$parts/whole" "$parts/stitched"
echo "$(basename "$name"): the markers of four parts, $(head -n 1 "$parts/stitched"), are those of one check"
