#!/bin/sh
# Builds the proved node as a static library, compiles the C examples against it, runs them and compares what they print.
set -eu
cd "$(dirname "$0")/../.."
sh tools/staticlib.sh
mkdir -p target/c
for example in two_nodes replaced_board old_votes rack silent fit compare; do
    cc -std=c11 -O2 -Wall -Wextra -Werror -Iinclude "examples/c/$example.c" target/staticlib/libcapi.a -o "target/c/$example"
    "target/c/$example" | tee "target/c/$example.out"
    diff "target/c/$example.out" "examples/c/$example.expected" && echo "as expected"
done
