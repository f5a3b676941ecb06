#!/bin/sh
# Builds the proved node as a static library and prints how much stack each call takes on the largest tables, of a loom and of a rack.
set -eu
cd "$(dirname "$0")/../.."
sh tools/staticlib.sh
mkdir -p target/c
cc -std=c11 -O2 -Wall -Wextra -Werror -Iinclude examples/c/stack.c target/staticlib/libcapi.a -lpthread -o target/c/stack
target/c/stack
