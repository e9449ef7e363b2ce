#!/bin/sh
# A filter driver that delays each path, and then lists three at a time. Files hold the contents, by number.
# shellcheck source=packets.sh
. "${0%/*}/packets.sh"
LC_ALL=C
count=0 given=0 listed=0
greet capability=smudge capability=delay
while asked; do
  if [ "$command" = list_available_blobs ]; then
    set --
    while [ "$listed" -lt "$count" ] && [ "$#" -lt 3 ]; do
      listed=$((listed + 1))
      set -- "$@" "pathname=$(cat "$work/path.$listed")"
    done
    put "$@"
    put status=success
  elif [ -n "$can_delay" ]; then
    count=$((count + 1))
    cp "$work/payloads" "$work/content.$count"
    printf '%s\n' "$path" >"$work/path.$count"
    put status=delayed
  else
    given=$((given + 1))
    cp "$work/content.$given" "$work/payloads"
    give
  fi
done
