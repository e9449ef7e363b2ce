# What the scripts of this folder share. Each script sources it as its first step: . "${0%/*}/lib.sh"
# shellcheck shell=bash
# shellcheck disable=SC2034 # the scripts use what stands here
set -eu
top=$(cd "${BASH_SOURCE[0]%/*}/.." && pwd)
script=${0##*/}
failures=0

# need TOOL..: if a tool is missing, the script prints one line and exits 0
need() {
  local tool
  for tool in "$@"; do
    command -v "$tool" >/dev/null || { echo "$script: skipped, since $tool is missing"; exit 0; }
  done
}

# make_work: makes the folder $work, which is removed at the end, in memory if there is room
make_work() {
  local room
  room=$(df --output=avail /dev/shm 2>/dev/null | tail -n 1)
  [ "${room:-0}" -lt 500000 ] || export TMPDIR=/dev/shm
  work=$(mktemp -d)
  trap 'rm -rf "$work"' EXIT
}

# fail TEXT: prints a difference and counts it
fail() {
  echo "$script: $1"
  failures=$((failures + 1))
}

# finish: exits with 1 if something differed, else prints the line `passed`
finish() {
  [ "$failures" = 0 ] || exit 1
  echo "$script: passed"
}
