#!/bin/sh
# Builds the images of the examples by GCC for ARM. The committed ones are by that of Debian 12, 12.2.1.
# Usage: python/firmware/build.sh [FOLDER]
set -eu
sources=$(cd "$(dirname "$0")" && pwd)
to=$(cd "${1:-$sources}" && pwd)
cd "$sources"

# build NAME SOURCE OPTION..
build() {
    name=$1
    source=$2
    shift 2
    arm-none-eabi-gcc -mcpu=cortex-m3 -mthumb -O1 -Wall -Wextra -ffreestanding -fno-tree-loop-distribute-patterns \
        -nostdlib -static -Wl,-T,link.ld -Wl,-n -Wl,--build-id=none "$@" "$source" -o "$to/$name"
    arm-none-eabi-strip -g "$to/$name"
}

build counter.elf counter.c -DATOMIC=0
build counter_atomic.elf counter.c -DATOMIC=1
build checksum.elf checksum.c
