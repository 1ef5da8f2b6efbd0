#!/usr/bin/env bash
# Runs the built program so that it ends with each of the statuses 0, 2, 4, 5 and 6, and compares its status, its output and
# what it says on standard error with the texts that stand here. Status 7 is for bench/refused_memory.sh.
set -u
here=$(cd "$(dirname "$0")/.." && pwd)
program=$here/crates/autopush/out/autopush
[ -x "$program" ] || { echo "build the program first: .ci/run"; exit 1; }
work=$(mktemp -d); trap 'rm -rf "$work"' EXIT
bad=0

# compares the run that has just ended with the status, the output and the line said (none where it is empty)
ended() {
  local status=$? name=$1 wanted=$2
  printf '%b' "$3" >"$work/wanted_output"
  [ -z "$4" ] && : >"$work/wanted_said" || printf '%s\n' "$4" >"$work/wanted_said"
  if [ "$status" -eq "$wanted" ] && cmp -s "$work/output" "$work/wanted_output" && cmp -s "$work/said" "$work/wanted_said"
  then echo "$name: $status"
  else echo "$name: $status, and not $wanted with these texts:"; bad=1; diff "$work/wanted_output" "$work/output"; diff "$work/wanted_said" "$work/said"
  fi
}

# runs a schedule
replay() { printf '%b' "$1" | "$program" replay >"$work/output" 2>"$work/said"; }

replay 'create 1 1 100\n';                   ended 'all is answered' 0 'made\n' ''
"$program" </dev/null >"$work/output" 2>"$work/said"
ended 'no words' 2 '' 'autopush: usage: autopush replay < SCHEDULE, or autopush serve CONNECTIONS ENDPOINTS CONNECTION_PORT ENDPOINT_PORT'
"$program" --help </dev/null >"$work/output" 2>"$work/said"
ended 'other words' 2 '' 'autopush: usage: autopush replay < SCHEDULE, or autopush serve CONNECTIONS ENDPOINTS CONNECTION_PORT ENDPOINT_PORT'
"$program" $'\xff' </dev/null >"$work/output" 2>"$work/said"
ended 'a word that is no text' 2 '' 'autopush: usage: autopush replay < SCHEDULE, or autopush serve CONNECTIONS ENDPOINTS CONNECTION_PORT ENDPOINT_PORT'
replay 'create 1 1 100\nfly\nreport\n';      ended 'a name of no step' 4 'made\nrefused line 2\n' 'autopush: line 2: word 1 names no kind of step'
replay 'kill 9';                             ended 'a number out of range' 4 'refused line 1\n' 'autopush: line 1: word 2, the node (a number from 1 to 8), is out of range'
replay 'report \n';                          ended 'a space behind' 4 'refused line 1\n' 'autopush: line 1: a space stands behind'
replay 'report\r\n';                         ended 'a CR' 4 'refused line 1\n' 'autopush: line 1: it has a CR; LF alone ends a line'
replay '\xef\xbb\xbfreport\n';               ended 'a byte order mark' 4 'refused line 1\n' 'autopush: line 1: a byte order mark stands in front'
replay "$(printf '%16385s' '')\nreport\n";   ended 'a line too long' 4 'refused line 1\n' 'autopush: line 1: it has more than 16384 bytes'
yes 'up 1' | head -n 1000001 | "$program" replay 2>"$work/said" | tail -n 2 >"$work/output"
(exit "${PIPESTATUS[2]}"); ended 'line 1,000,001' 4 'done\nrefused line 1000001\n' 'autopush: line 1000001: a schedule has at most 1000000 lines'
"$program" replay <"$work" >"$work/output" 2>"$work/said"
ended 'a folder as input' 5 '' 'autopush: the input failed'
echo report | "$program" replay >/dev/full 2>"$work/said"; status=$?
: >"$work/output"; (exit "$status"); ended 'a full device as output' 6 '' 'autopush: the output failed'
: >"$work/said"; echo fly | "$program" replay >"$work/output" 2>/dev/full
ended 'a full device for the message' 4 'refused line 1\n' ''
exit $bad
