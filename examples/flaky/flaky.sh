#!/bin/sh
# The beam of ../first by a simulation that crashes by chance, at about every fourth call: flaky.sh PARAMETERS RESULTS
if [ "$(od -A n -N 1 -t u1 /dev/urandom)" -lt 64 ]; then
    echo 'flaky.sh: crashes' >&2
    kill -KILL $$
fi
exec ../first/beam.sh "$1" "$2"
