#!/bin/bash
# A tape that answers two events, and ends when the file SEEN is there; that must
# be within 20 seconds.
cat >/dev/null
printf 'E 0 0 0 0\nE 1 0 0 0\n'
for _ in {1..200}; do
    [ -e "$SEEN" ] && exit 0
    sleep 0.1
done
exit 1
