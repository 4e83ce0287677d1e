#!/bin/sh
# run.sh: builds the library, links it with the C programs in this folder and runs them beside the plain C peer of bench/; docs/CALLING.md
# tells what they are. Run by hand; the gate does not run it. It wants the toolchain's rt on the path. What it makes goes to target/calls.
set -e
cd "$(dirname "$0")/.."
kit=$(dirname "$(rt doc)"); tools=$kit/toolchain; out=target/calls
(cd crates/wheloruka && rt lib >/dev/null)
nm -u crates/wheloruka/out/libwheloruka.a | awk '$1 == "U" { print $2 }' | sort -u | tr '\n' ' ' | grep -qx 'memcpy memset ' ||
    { echo "run.sh: the library asks for other names from outside than memcpy and memset" >&2; exit 1; }
mkdir -p $out
cc="$tools/bin/clang --target=x86_64-unknown-linux-gnu -O2 -fPIE -nostdinc -Wall -Wextra -Wno-unused-parameter -Icalls/headers -Iinclude"
run="$tools/lib/ld-linux-x86-64.so.2 --library-path $tools/lib"

link() { # link NAME OBJECT..: a program of these objects and the library
    name=$1; shift
    "$kit/bin/rattle-link" --target x86_64-unknown-linux-gnu --toolchain "$tools" -o $out/$name "$@" crates/wheloruka/out/libwheloruka.a >/dev/null 2>&1
}

# the programs that docs/CALLING.md shows are those that are run
shown() { awk -v n="$1" '/^```c$/ { k++; on = k == n; next } /^```/ { on = 0 } on' docs/CALLING.md; } # shown N: the N-th of them
shown 1 | cmp - calls/sums.c
shown 2 | cmp - calls/parts.c

for f in taking test sums parts; do $cc -c calls/$f.c -o $out/$f.o; done
for f in drive peer; do $cc -c bench/$f.c -o $out/$f.o; done
link taking $out/drive.o $out/peer.o $out/taking.o
link test $out/test.o
link sums $out/sums.o
link parts $out/parts.o

$run $out/taking same
$run $out/test
# the paper's edge 7: one record accepted, one that fails the edit
printf '\001\0\0\0\007\0\0\0\144\037\0\0\001\0\036\0\001\0\0\0\003\0\0\0\005\0\0\0\0\0\0\0\0\0\0\0\001\0\0\0\014\0\0\0\0\0\0\0\002\0\0\0' >$out/edge7
printf '\014\0\002\0\001\0\0\0\144\037\0\0\0\0\0\0\0\0\0\0\0\104\217\100\0\0\0\0\0\102\217\100\003\0' >>$out/edge7
printf '\014\0\002\0\001\0\0\0\144\037\0\0\350\003\0\0\0\0\0\0\0\114\217\100\0\0\0\0\0\102\217\100\003\0' >>$out/edge7
$run $out/sums <$out/edge7 | tee $out/sums.txt
printf '3 0 seen 147456 50331648 1\n1 of 2 records accepted\n' | cmp - $out/sums.txt
# the same as it arrives: a byte, then the rest; and cut short
{ head -c 1 $out/edge7; sleep 1; tail -c +2 $out/edge7; } | $run $out/parts | tee $out/parts.txt
printf '1 of 2 records accepted\n' | cmp - $out/parts.txt
head -c 100 $out/edge7 | $run $out/parts >$out/parts.txt || true
printf 'refused 1 at 100\n' | cmp - $out/parts.txt
echo "all agree"
