#!/bin/sh
# Checks one cell in continuous integration (docs/ci.md).
#
#   check.sh MPW DECK TOP FILE OUT [KNOWN]
#
# MPW is the program mpw, of a clone or installed. The folder OUT gets TOP.txt (the listing), TOP.log (the summary), TOP.lyrdb (for KLayout), TOP.xml (JUnit)
# and TOP.md (Markdown). KNOWN is a listing of accepted markers. The exit status is that of mpw check: 0 without other markers, 1 with some, more if nothing
# was checked.
set -eu
mpw=$1 deck=$2 top=$3 file=$4 out=$5
shift 5
[ $# -eq 0 ] || set -- --known "$1"
mkdir -p "$out"
status=0
"$mpw" check --strict --deck "$deck" --top "$top" --report "$out/$top.lyrdb" "$@" "$file" > "$out/$top.txt" 2> "$out/$top.log" || status=$?
cat "$out/$top.log" >&2
if [ "$status" -le 1 ]; then
    # In a clone the tool is below the folder of mpw, and else next to mpw.
    folder=$(dirname "$(readlink -f "$(command -v "$mpw")")")
    report=$folder/clients/python/mpw-report
    [ -x "$report" ] || report=$folder/mpw-report
    # With known markers it prints what the log has already, and ends with the same status; else with 0.
    "$report" --deck "$deck" --name "$top" --junit "$out/$top.xml" --markdown "$out/$top.md" "$@" \
        "$out/$top.txt" > /dev/null || { ended=$?; [ $# -gt 0 ] && [ "$ended" -eq "$status" ]; }
fi
exit "$status"
