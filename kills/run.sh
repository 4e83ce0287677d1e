#!/bin/sh
# run.sh [RUNS [FOLDER]]: stops `desk merge A B OUT` by SIGKILL at random moments, 400 times or as often as is asked, and looks at what is left in
# FOLDER (target/kills): OUT, where it is there, must be the whole merged file. Run by hand; the gate does not run it. It wants the toolchain's rt
# on the path, and `timeout` with fractions of a second. The files are of full size: one arc and 500 parameters each, all sums 0.
set -e
cd "$(dirname "$0")/.."
runs=${1:-400} work=${2:-target/kills}
mkdir -p target "$work"
echo "proving the desk program, if that is not done yet"
(cd crates/desk && rt run -- help) >target/kills.log 2>&1 || { cat target/kills.log; exit 1; }
desk="$PWD/crates/desk/out/desk"
cd "$work"
rm -f A B OUT OUT.part RIGHT

word() { printf "$(printf '\\%03o\\%03o\\%03o\\000' $(($1 % 256)) $(($1 / 256 % 256)) $(($1 / 65536)))"; }
normal() { # normal ARC: a normal file of this arc, with the first 500 station coordinates, no records
    word 1; word "$1"; word 500
    printf "$(awk 'BEGIN { for (i = 0; i < 500; i++) { printf "\\002\\000\\%03o\\%03o", i % 256, int(i / 256); for (k = 0; k < 20; k++) printf "\\000" } }')"
    word 125250; head -c 1002000 /dev/zero; word 500; head -c 4000 /dev/zero; word 1; head -c 16 /dev/zero
}
normal 1 >A
normal 2 >B
$desk merge A B RIGHT
[ -s RIGHT ] || { echo "no merged file"; exit 1; }

# each run is stopped after a random time of up to twice `aim`, which is moved so that about half of the runs come to their end
n=0 whole=0 none=0 part=0 both=0 stopped=0 aim=0.01 seed=$(date +%s)
while [ $n -lt "$runs" ]; do
    n=$((n + 1))
    rm -f OUT OUT.part
    after=$(awk -v aim="$aim" -v seed="$((seed + n))" 'BEGIN { srand(seed); printf "%.6f", 2 * aim * rand() + 0.000001 }')
    status=0
    timeout -s KILL "$after" $desk merge A B OUT >/dev/null 2>&1 || status=$?
    [ $status -eq 0 ] || stopped=$((stopped + 1))
    if [ -e OUT ]; then
        cmp -s OUT RIGHT || { echo "run $n, stopped after $after s: OUT is there and is not the whole file: $(wc -c <OUT) bytes"; exit 1; }
        whole=$((whole + 1))
        [ ! -e OUT.part ] || both=$((both + 1))
        aim=$(awk -v aim="$aim" 'BEGIN { print aim * 0.97 }')
    else
        if [ -e OUT.part ]; then part=$((part + 1)); else none=$((none + 1)); fi
        aim=$(awk -v aim="$aim" 'BEGIN { print aim * 1.03 }')
    fi
done
echo "$n runs, $stopped of them stopped: OUT whole after $whole, only OUT.part after $part, neither after $none, both after $both"

# a file OUT.part that was left is named, and stays; without it OUT is made
rm -f OUT; : >OUT.part
$desk merge A B OUT >said 2>&1
grep -q '^OUT.part: ' said || { echo "OUT.part was not named"; exit 1; }
[ ! -e OUT ] && [ -e OUT.part ] || { echo "a run went on beside OUT.part"; exit 1; }
rm OUT.part
$desk merge A B OUT >said 2>&1
cmp OUT RIGHT
rm -f A B OUT OUT.part RIGHT said
echo "OUT is whole or absent"
