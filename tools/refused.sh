#!/bin/sh
# Makes each allocation of some runs of ./pls fail, one at a time, and then each read and each write of
# some, a byte at a time. Each run has to end as it does without a fault, or
#
#     with status 6 and nothing written, where an allocation failed;
#     with status 4 and nothing written, where a read failed;
#     with status 5 and the first bytes of the text, where a write failed.
#
#     tools/refused.sh
#
# It takes a C compiler. The last line is `N runs, M wrong`; the status is 1 where one is wrong.

top=$(cd "$(dirname "$0")/.." && pwd) || exit 1
[ -x "$top/pls" ] || { echo 'refused.sh: there is no ./pls: make pls builds it' >&2; exit 1; }
work=$(mktemp -d) || exit 1
trap 'rm -rf "$work"' EXIT
cc -shared -fPIC -O2 -o "$work/refuse.so" "$top/tools/refuse.c" -ldl || exit 1
cd "$work" || exit 1
runs=0
wrong=0

# bad WHAT WORDS..: tells of a run with a third outcome
bad() {
    what=$1
    shift
    wrong=$((wrong + 1))
    echo "$*: status $end where $what fails"
}

# count INPUT WORDS..: the run without a fault, which is not to be refused, and its numbers of allocations,
# reads and writes
count() {
    input=$1
    shift
    "$top/pls" "$@" < "$input" > whole
    status=$?
    [ "$status" -le 1 ] || { echo "refused.sh: $*: status $status without a fault" >&2; exit 1; }
    COUNTED=$work/count LD_PRELOAD=$work/refuse.so "$top/pls" "$@" < "$input" > /dev/null
    read -r allocations reads writes < count
    [ "$writes" -gt 0 ] && [ "$allocations" -gt 0 ] ||
        { echo 'refused.sh: no call of ./pls is counted: it has its own malloc' >&2; exit 1; }
}

# try INPUT WORDS..: each allocation refused in turn
try() {
    count "$@"
    shift
    same=0
    number=1
    while [ "$number" -le "$allocations" ]; do
        REFUSE=$number LD_PRELOAD=$work/refuse.so "$top/pls" "$@" < "$input" > got
        end=$?
        runs=$((runs + 1))
        if [ "$end" -eq "$status" ] && cmp -s whole got; then
            same=$((same + 1))
        elif [ "$end" -ne 6 ] || [ -s got ]; then
            bad "allocation $number" "$@"
        fi
        number=$((number + 1))
    done
    echo "$*: status $status, $allocations allocations, $same of which may fail without a change"
}

# each_byte INPUT WORDS..: each read and each write of a byte failing in turn, and one behind the last
each_byte() {
    export BYTES=1
    count "$@"
    shift
    number=1
    while [ "$number" -le $((reads + 1)) ]; do
        FAIL_READ=$number LD_PRELOAD=$work/refuse.so "$top/pls" "$@" < "$input" > got
        end=$?
        runs=$((runs + 1))
        if [ "$number" -gt "$reads" ]; then
            [ "$end" -eq "$status" ] && cmp -s whole got || bad "no read" "$@"
        elif [ "$end" -ne 4 ] || [ -s got ]; then
            bad "read $number" "$@"
        fi
        number=$((number + 1))
    done
    number=1
    while [ "$number" -le $((writes + 1)) ]; do
        FAIL_WRITE=$number LD_PRELOAD=$work/refuse.so "$top/pls" "$@" < "$input" > got
        end=$?
        runs=$((runs + 1))
        if [ "$number" -gt "$writes" ]; then
            [ "$end" -eq "$status" ] && cmp -s whole got || bad "no write" "$@"
        else
            head -c $((number - 1)) whole > prefix
            [ "$end" -eq 5 ] && cmp -s prefix got || bad "write $number" "$@"
        fi
        number=$((number + 1))
    done
    unset BYTES
    echo "$*: status $status, $reads reads and $writes writes, each of which failed"
}

chain=$top/examples/chain.txt
leader=$top/examples/leader.txt
pair=$top/examples/two-nodes.txt
head -n 6 "$pair" > net
: > none
for scheme in tree forest acyclic bipartite spt mst pathmax 'or(bipartite,mst)' 'and(tree,and(forest,bipartite))' \
    'map(and(mst,diameter:2))'; do
    "$top/pls" mark "$scheme" < "$chain" | cat "$chain" - > marked
    try "$chain" mark "$scheme"
    try marked verify "$scheme"
done
for scheme in leader count; do
    "$top/pls" mark "$scheme" < "$leader" | cat "$leader" - > marked
    try "$leader" mark "$scheme"
    try marked verify "$scheme"
done
printf 'schedule\nemit 1 0\nemit 2 0\narrive 1\narrive 2\nend\n' | cat "$pair" - > played
try played simulate bipartite
try played simulate bipartite --json
try "$pair" verify bipartite --json
printf 'edits\njoin 9 0 0\nlink 2 9 1\nlabel 9 1 80\nround\nunlink 2 9\nleave 9\nlabel 2 1 00\nweight 1 2 5\nstate 1 - 0 0\nround\nend\n' |
    cat "$pair" - > edited
try edited recheck bipartite
printf 'watch\nemit 1 0\nlook\nrelabel 2 2 40\nemit 2 0\narrive 1\narrive 2\nrelabel 1 1 80\nlook\nend\n' |
    cat "$pair" - > watched
try watched watch bipartite
try watched watch 'or(bipartite,tree)'
for i in 1 2 3 4 5 6 7 8; do
    printf 'node %s - 0 0\nport %s 1\nport %s 1\n' "$i" $(((i + 6) % 8 + 1)) $((i % 8 + 1))
done | { echo network; cat; echo end; } > ring
"$top/pls" mark bipartite < ring | cat ring - > marked
try marked splice bipartite
printf 'rules\nfield colour bit\nrule all(not(eq(nb.colour,my.colour)))\nend\n' | cat marked - > ruled
try ruled splice
try net bound 'and(bipartite,acyclic)'
try none trial 5:7
"$top/pls" rules tree > set
"$top/pls" mark tree < "$chain" | cat "$chain" - set > ruled
cat "$top/examples/independent.txt" "$top/examples/independent.rules" > chosen
for input in ruled chosen; do
    try "$input" judge
    try "$input" judge --json
done
try set code
try "$top/examples/independent.rules" code
try none rules tree
"$top/pls" mark leader < "$leader" | cat "$leader" - > marked
try "$leader" mark leader --code delta
try marked convert leader
"$top/pls" mark 'map(tree)' < "$chain" | cat "$chain" - > marked
try marked convert 'map(tree)'
printf 'network\nnode 1 - 0 0\nport 2 1\nnode 2 - 0 0\nport 1 1\nnode 3 - 1 0\nend\n' > apart
"$top/pls" mark bipartite < apart | cat apart - > marked
try apart mark bipartite
try apart mark leader
try apart mark 'map(leader)'
try apart bound tree
try marked verify bipartite
try marked verify bipartite --json
printf 'schedule\nemit 1 0\narrive 1\nend\n' | cat marked - > played_apart
try played_apart simulate bipartite
printf 'edits\nlink 2 3 1\nround\nunlink 1 2\nround\nend\n' | cat marked - > edited_apart
try edited_apart recheck bipartite
printf 'watch\nlook\nrelabel 3 1 80\nlook\nend\n' | cat marked - > watched_apart
try watched_apart watch bipartite
printf 'rules\nfield colour bit\nrule all(not(eq(nb.colour,my.colour)))\nend\n' | cat marked - > ruled_apart
try ruled_apart judge
try marked convert bipartite
"$top/pls" mark pathmax < "$chain" | cat "$chain" - > marked
try marked convert pathmax
printf 'edits\nround\nend\n' | cat marked - > edited_chain
try edited_chain recheck pathmax
"$top/pls" mark 'and(pathmax,mst)' < "$chain" | cat "$chain" - > marked
try marked convert 'and(pathmax,mst)'

# the reads and writes of eleven commands
each_byte "$pair" verify bipartite
each_byte net mark bipartite
each_byte net bound mst
each_byte played simulate bipartite
each_byte edited recheck bipartite
each_byte watched watch bipartite
each_byte chosen judge --json
each_byte set code
each_byte none trial 5:7
"$top/pls" mark leader < "$leader" | cat "$leader" - > marked
each_byte marked convert leader
"$top/pls" mark bipartite < ring | cat ring - > marked
each_byte marked splice bipartite

echo "$runs runs, $wrong wrong"
[ "$wrong" -eq 0 ]
