#!/bin/sh
# A filter driver that ends in the middle of an answer, at each path that ends in `3`.
# shellcheck source=packets.sh
. "${0%/*}/packets.sh"
LC_ALL=C
greet capability=smudge
while asked; do
  case $path in
    *3) give | head -c 25 && exit 1 ;;
    *) give ;;
  esac
done
