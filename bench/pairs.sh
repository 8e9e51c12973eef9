#!/bin/sh
# The pairs that search_counts settles as clauses, put to clingo as rules (a like problem, not the same input): n independent pairs that exclude each other, with a
# third statement that either supports. Usage: bench/pairs.sh PROGRAM, where PROGRAM is the built search_counts; clingo
# (Debian package gringo) must be installed. The program prints its counts, and on the error stream its times.
set -eu
"$1"
for n in 20 40 60 120; do
    i=0
    rules=$(mktemp)
    while [ "$i" -lt "$n" ]; do
        echo "a$i :- not b$i. b$i :- not a$i. c$i :- a$i. c$i :- b$i."
        i=$((i + 1))
    done >"$rules"
    start=$(date +%s%N)
    clingo --enum-mode=cautious -n 0 -q "$rules" >"$rules.out" || true
    end=$(date +%s%N)
    echo "clingo pairs $n $(grep Consequences "$rules.out" | tr -s ' ') microseconds $(((end - start) / 1000))"
    rm -f "$rules" "$rules.out"
done
