#!/bin/bash
# A tape that does what ACT says, after it has read its input.
case $ACT in
    early) ;;
    change)
        # The day gets a bad line, far behind what is in the pipe.
        printf '\nwhat\n' | dd of="$DAY" conv=notrunc bs=1 seek=1000000 status=none
        cat >/dev/null
        ;;
    *) cat >/dev/null ;;
esac
case $ACT in
    early | none) ;;
    lines | both) printf '%b' "$LINES_TO_PRINT" ;;
    much) yes 'E 0 0 0 0' | head -n 200000 ;;
    segment) kill -SEGV $$ ;;
    killed) kill -KILL $$ ;;
    status) exit 7 ;;
esac
case $ACT in
    both) printf '%b' "$SAID" >&2 ;;
esac
