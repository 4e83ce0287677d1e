#!/bin/sh
# bench.sh [time | count] [taking | normal], bench.sh count small, bench.sh count parts: the proved code beside the plain C peer, taking records or reading and merging normal
# files, `small` those of the small form; and an arc file in parts beside one run;
# docs/BENCH.md tells what the numbers are.
#   time   (or nothing) builds the driver at eight placements of the code; each compares all results, then measures times; their ratios
#   count  prints the executed instructions a record or a sum, exactly: under the kit's emulator where it has one (not on x86-64), and slow,
#          about ten minutes; else by valgrind, in seconds
# It wants the toolchain's rt on the path. What it makes goes to target/bench.
set -e
cd "$(dirname "$0")/.."
kit=$(dirname "$(rt doc)"); tools=$kit/toolchain; out=target/bench
case ${2:-taking} in
taking | parts) peer=peer; drive=drive; names='take_run take' ;;
normal) peer=normal_peer; drive=normal_drive; names='read merge'; of=0 ;;
small) peer=normal_peer; drive=normal_drive; names='read merge'; of=4 ;;
*) echo "usage: bench.sh [time | count] [taking | normal], bench.sh count small, bench.sh count parts" >&2; exit 2 ;;
esac
(cd crates/bench && rt lib >/dev/null)
mkdir -p $out
cc="$tools/bin/clang --target=x86_64-unknown-linux-gnu -O3 -fPIE -nostdinc -Wall -Wno-unused-parameter"
qemu=$tools/bin/qemu-x86_64; [ -x "$qemu" ] || qemu=
run="$tools/lib/ld-linux-x86-64.so.2 --library-path $tools/lib"
for f in $peer $drive; do $cc -c bench/$f.c -o $out/$f.o; done

link() { # link PAD: the driver with so many bytes before the code
    printf '__asm__(".section .text.pad,\\"axR\\"\\n.skip %d, 0x90\\n");\n' "$1" >$out/pad.c
    $cc -c $out/pad.c -o $out/pad.o
    "$kit/bin/rattle-link" --target x86_64-unknown-linux-gnu --toolchain "$tools" -o $out/bench $out/$drive.o $out/$peer.o $out/pad.o crates/bench/out/libbench.a >/dev/null 2>&1
}

instructions() { # instructions ARGS..: how many the driver executes, the loader's among them; a block is cleared by a loop, not by a string instruction whose every byte would count
    if [ "$qemu" ]; then
        GLIBC_TUNABLES=glibc.cpu.x86_rep_stosb_threshold=100000000 $qemu -one-insn-per-tb -d nochain,exec -D /dev/fd/2 $run $out/bench "$@" 2>&1 >/dev/null | grep -c '^Trace'
    else
        GLIBC_TUNABLES=glibc.cpu.x86_rep_stosb_threshold=100000000 valgrind --tool=callgrind --callgrind-out-file=/dev/null $run $out/bench "$@" 2>&1 >/dev/null | sed -n 's/.*Collected : \([0-9]*\).*/\1/p'
    fi
}

each() { # each N ARGS..: the instructions of one call, as the difference between one call and none, for each of N; a call's ARGS have @ for the number of calls
    n=$1; shift
    one=$(echo "$*" | sed s/@/1/); none=$(echo "$*" | sed s/@/0/)
    echo "$(instructions $one) $(instructions $none) $n" | awk '{ printf "%.1f", ($1 - $2) / $3 }'
}

case ${1:-time} in
time)
    for pad in 0 512 1024 1536 2048 2560 3072 3584; do link $pad; $qemu $run $out/bench; done >$out/times
    grep '^same' $out/times | sort -u
    # of each line's eight ratios the least, the middle and the greatest
    awk '/ratio/ {
            key = $1 " at P " $4; if (!(key in n)) order[++keys] = key
            for (i = ++n[key]; i > 1 && r[key, i - 1] > $NF; i--) r[key, i] = r[key, i - 1]
            r[key, i] = $NF
        }
        END { for (k = 1; k <= keys; k++) { key = order[k]; print key " ratio " r[key, 1] " to " r[key, n[key]] ", middle " r[key, int(n[key] / 2)] } }' $out/times
    ;;
count)
    link 0
    $qemu $run $out/bench same
    if [ "${2:-taking}" = parts ]; then
        # parts of 64 KiB beside one run, where nearly all are accepted and where most are refused; and what a part of one byte costs, by a file of 40 records
        for p in 6 50; do
            for n in 4000 60000; do
                echo "$(each $n 1 $p @ $n) $(each $n 4 $p @ $n)" |
                    awk -v p=$p -v n=$n '{ printf "P %d, %d records: take_run %.1f, parts of 64 KiB %.1f a record, ratio %.3f\n", p, n, $1, $2, $2 / $1 }'
            done
            bytes=$((956 - 16 * (50 - p) + 40 * (32 + 2 * p)))
            echo "$(each 1 5 $p @ 40) $(each 1 1 $p @ 40) $bytes" | awk -v p=$p '{ printf "P %d: %.0f a part of one byte\n", p, ($1 - $2) / $3 }'
        done
        exit
    fi
    if [ $drive = drive ]; then
        for p in 1 6 20 50; do echo "$p $(each 4000 0 $p @ 4000) $(each 4000 1 $p @ 4000) $(each 400 2 $p @ 400) $(each 400 3 $p @ 400)"; done
    else
        # a small file has the sums of all parameters but one in nine
        for p in 50 200 500; do
            s=$((p * (p + 3) / 2)); n=$p; [ $of = 0 ] || n=$((p - (p + 4) / 9)); r=$((n * (n + 3) / 2))
            echo "$p $(each $r $of $p @) $(each $r $((of + 1)) $p @) $(each $s $((of + 2)) $p @) $(each $s $((of + 3)) $p @)"
        done
    fi | awk -v names="$names" '{ split(names, n); printf "P %d: %s %.1f, c %.1f, ratio %.3f; %s %.1f, c %.1f, ratio %.3f\n", $1, n[1], $3, $2, $3 / $2, n[2], $5, $4, $5 / $4 }'
    ;;
*) echo "usage: bench.sh [time | count] [taking | normal], bench.sh count small, bench.sh count parts" >&2; exit 2 ;;
esac
