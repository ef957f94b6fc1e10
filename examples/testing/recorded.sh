#!/bin/bash
# A program under the recorder, as a step of a CI, at the repository's root:  examples/testing/recorded.sh ./program WORDS ..
# Status: the report's, where it isn't 0, else the program's.
set -o pipefail
export RECORD_FOLDER=$PWD/out/recorded RECORD_HANG=${RECORD_HANG:-60}
rm -rf "$RECORD_FOLDER"
mkdir -p out
timeout 600 ${MPIRUN:-mpirun -np 3} env LD_PRELOAD="${RECORDER:-$PWD/record/out/librecord.so}" "$@" | tee out/program.txt
ran=$?
timeout 600 record/report --least 90 --junit out/report.xml "$RECORD_FOLDER" | tee out/report.txt || exit
exit $ran
