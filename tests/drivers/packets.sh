# What the drivers in shell share: packets as files, since a content may have NULs. No driver of its own. A driver sources it as
# its first step: . "${0%/*}/packets.sh"
# shellcheck shell=sh
work=$(mktemp -d)
trap 'rm -rf "$work"' EXIT

# bytes NUMBER: so many bytes of the input, and not one more
bytes() {
  dd bs=1 count="$1" 2>/dev/null
}

# packet: the next payload in the file `payload`; it fails at a flush, and the end of the input ends the driver
packet() {
  digits=$(bytes 4)
  [ "${#digits}" = 4 ] || exit 0
  [ "$digits" != 0000 ] || return 1
  bytes $((0x$digits - 4)) >"$work/payload"
}

# until_flush: the payloads up to a flush, joined in the file `payloads`
until_flush() {
  : >"$work/payloads"
  while packet; do
    cat "$work/payload" >>"$work/payloads"
  done
}

# put LINE..: lines, and a flush
put() {
  for line; do
    printf '%04x%s\n' $((${#line} + 5)) "$line"
  done
  printf 0000
}

# give: the letters of the file `payloads` in the other case, as an answer. The files of the tests have at most 65,516 bytes.
give() {
  put status=success
  tr 'a-zA-Z' 'A-Za-z' <"$work/payloads" >"$work/turned"
  length=$(wc -c <"$work/turned")
  [ "$length" -eq 0 ] || printf '%04x' $((length + 4))
  cat "$work/turned"
  put
  put
}

# greet CAPABILITY..
greet() {
  until_flush
  put git-filter-server version=2
  until_flush
  put "$@"
}

# asked: the next request's keys; `command` and `path` are what it asks for
# shellcheck disable=SC2034 # the drivers use them
asked() {
  until_flush
  command=$(sed -n 's/^command=//p' "$work/payloads")
  path=$(sed -n 's/^pathname=//p' "$work/payloads")
  can_delay=$(sed -n 's/^can-delay=//p' "$work/payloads")
  [ "$command" = list_available_blobs ] || until_flush
}
