#!/bin/sh
# usage: run.sh LIBRARY [NAME..]
# LIBRARY is the folder that bin/vtdm-c made. Builds the guest, runs it on QEMU's VT-d unit, and prints its last line: how many requests,
# replies and moments agree with the library's own unit, and how many differ. Ends with status 0 where none differs. A NAME is one of:
#   WIDE                   domains and a unit of 48 bits
#   CACHING                a unit with Caching Mode
#   BASE, BASE_BEHIND      the table frames don't begin at host frame 0, but before what devices may reach, or behind it
#   IN_PLACE               the library's own words are the unit's tables, and none is copied
# or of those that show that the guest can fail:
#   WITHOUT_DESCRIPTORS    only waits are queued
#   WRONG_ORDER            a table is named in the place of a leaf before it is filled
#   WORDS_LATE             descriptors are done before the words are brought
#   WRONG_HALVES           a context entry is present before its domain is there, and until its domain is gone
#   WITHOUT_BASE           words of context entries name the root by its number, and not by its host frame
#   DETACH_ALONE           a detach sends what the library sends, and no IOTLB descriptor
# LOG, where it is set, is a file for all that the guest says.
set -eu
if [ $# -eq 0 ]; then
    echo "usage: run.sh LIBRARY [NAME..]" >&2
    exit 2
fi
here=$(cd "$(dirname "$0")" && pwd)
library=$(cd "$1" && pwd)
shift
width=39 caching=off
flags="-std=gnu11 -m64 -O2 -Wall -Wextra -Werror -ffreestanding -fno-pic -fno-stack-protector -fno-builtin -fno-tree-loop-distribute-patterns"
for name in "$@"; do
    flags="$flags -D$name"
    case $name in
        WIDE) width=48 ;;
        CACHING) caching=on ;;
        BASE | BASE_BEHIND | IN_PLACE | WITHOUT_DESCRIPTORS | WRONG_ORDER | WORDS_LATE | WRONG_HALVES | WITHOUT_BASE | DETACH_ALONE) ;;
        *)
            echo "run.sh: $name is no name" >&2
            exit 2
            ;;
    esac
done
out=$(mktemp -d)
trap 'rm -rf "$out"' EXIT
cd "$out"
for part in boot.S machine.c libc.c unit.c requests.c guest.c; do
    cc $flags -I"$library/include" -c "$here/$part" -o "${part%.*}.o"
done
cc -m64 -nostdlib -static -no-pie -Wl,--build-id=none -Wl,-z,noexecstack -Wl,-T,"$here/link.ld" \
    boot.o machine.o libc.o unit.o requests.o guest.o "$library/lib/libvtdm.a" -o guest.elf64
objcopy -O elf32-i386 guest.elf64 guest.elf # multiboot takes no other
status=0
timeout 240 qemu-system-x86_64 -M q35 -accel tcg -cpu max -m 512M -display none -no-reboot -net none \
    -serial "file:$out/serial" -icount shift=10 \
    -device intel-iommu,intremap=off,caching-mode=$caching,aw-bits=$width \
    -device edu,addr=03.0,dma_mask=0xffffffffffffffff -device edu,addr=04.0,dma_mask=0xffffffffffffffff \
    -device isa-debug-exit,iobase=0xf4,iosize=4 -kernel guest.elf || status=$?
[ -z "${LOG:-}" ] || cp "$out/serial" "$LOG"
tail -n 1 "$out/serial"
# The guest ends the machine with status 33 where nothing differs, and with 35 else.
[ $status = 33 ]
