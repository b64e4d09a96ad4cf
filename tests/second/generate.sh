#!/bin/sh
# Makes the job files and call files of the comparison, with the lines expected of them.
# Usage: generate.sh DIR [SEED]   SEED is one more seed, say 0x and the first digits of a commit.
set -eu
here=$(cd "$(dirname "$0")" && pwd)
dir=$1
extra=${2:-}
second=${SECOND:-$here/target/release/second}
jobs=${JOBS:-200}
call_files=${CALL_FILES:-50}
calls_each=${CALLS_EACH:-100}

mkdir -p "$dir"
make_job() {
    "$second" generate-job "$1" > "$dir/$2.job"
    "$second" answer-job < "$dir/$2.job" > "$dir/$2.job.expected"
}
make_calls() {
    "$second" generate-calls "$1" "$calls_each" > "$dir/$2.calls"
    "$second" answer-calls < "$dir/$2.calls" > "$dir/$2.calls.expected"
}

seed=0
while [ "$seed" -lt "$jobs" ]; do
    make_job "$seed" "$(printf '%03d' "$seed")"
    seed=$((seed + 1))
done
seed=0
while [ "$seed" -lt "$call_files" ]; do
    make_calls "$seed" "$(printf '%03d' "$seed")"
    seed=$((seed + 1))
done
if [ -n "$extra" ]; then
    make_job "$extra" extra
    make_calls "$extra" extra
fi
