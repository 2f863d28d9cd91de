#!/usr/bin/env bash
# Says of a Slurm job by its number whether it is running, success or failed, as Snakemake 7 asks. The controller knows a job for some
# minutes after its end, and the accounting for longer, where there is one.
set -u

state=$(scontrol --oneliner show job "$1" 2>/dev/null | sed -n 's/.*\bJobState=\([A-Z_]*\).*/\1/p')
[ -n "$state" ] || state=$(sacct --noheader --parsable2 --allocations --format=State --jobs="$1" 2>/dev/null | sed -n '1s/[ +].*//;1p')

case $state in
    COMPLETED) echo success ;;
    PENDING | CONFIGURING | RUNNING | COMPLETING | SUSPENDED | STOPPED | REQUEUED | REQUEUE_HOLD | REQUEUE_FED | RESIZING | SIGNALING | STAGE_OUT) echo running ;;
    "") if squeue >/dev/null 2>&1; then echo failed; else echo running; fi ;; # (a controller that doesn't answer is asked again)
    *) echo failed ;;
esac
