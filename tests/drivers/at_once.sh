#!/bin/sh
# A filter driver that answers each path at once.
# shellcheck source=packets.sh
. "${0%/*}/packets.sh"
LC_ALL=C
greet capability=smudge
while asked; do
  give
done
