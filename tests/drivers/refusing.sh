#!/bin/sh
# A filter driver that refuses each path that ends in `3`.
# shellcheck source=packets.sh
. "${0%/*}/packets.sh"
LC_ALL=C
greet capability=smudge
while asked; do
  case $path in
    *3) put status=error ;;
    *) give ;;
  esac
done
