#!/bin/sh
# What the largest inputs cost: the processor time of each command, in milliseconds, at a quarter, at a
# half and at the whole of what the limits allow, for the schemes whose property the networks have. Run
# from the top of the repository, with ./pls built:
#
#   sh tools/costs.sh [RUNS]
#
# Each figure is the mean of RUNS runs (5 if left out). A shell, awk and the desk (Python 3.11) do;
# inputs are made in a folder of their own and removed.
set -u
runs=${1:-5}
[ -x ./pls ] || { echo 'tools/costs.sh: ./pls is not built (make pls)' >&2; exit 1; }
dir=$(mktemp -d) || exit 1
trap 'rm -rf "$dir"' EXIT

# milliseconds FILE WORD..: the mean processor time of ./pls with these words on the file.
milliseconds() {
    file=$1
    shift
    ( i=0
      while [ "$i" -lt "$runs" ]; do ./pls "$@" < "$file" > /dev/null; i=$((i + 1)); done
      times ) | awk -v runs="$runs" '
        NR == 2 { for (k = 1; k <= 2; k++) { split($k, part, /[ms]/); all += 60 * part[1] + part[2] } }
        END { printf "%.0f", 1000 * all / runs }'
}

# row NAME A B C WORD..: a line of the table, for three files.
row() {
    name=$1 a=$2 b=$3 c=$4
    shift 4
    printf '%-44s %6s %6s %6s\n' "$name" \
        "$(milliseconds "$a" "$@")" "$(milliseconds "$b" "$@")" "$(milliseconds "$c" "$@")"
}

# network KIND N: the first node has mark 1, and all know how many there are.
network() {
    python/bin/plsdesk import --made "$1:$2" |
        awk -v n="$2" '$1 == "node" { $4 = first++ ? 0 : 1; $5 = n } { print }'
}

# schedule N: labels that are sent and arrive, port after port and round after round, N events.
schedule() {
    awk -v most="$1" '
        BEGIN { count = 0 }
        $1 == "node" { node = $2; port = 0 }
        $1 == "port" { from[count] = node; at[count++] = port++ }
        END {
            print "schedule"
            for (e = 0; 2 * e < most; e++) {
                print "emit", from[e % count], at[e % count]
                print "arrive", e + 1
            }
            print "end"
        }'
}

# edits N: labels, weights and states in turn, N lines of which 128 ask for a round.
edits() {
    awk -v most="$1" '
        BEGIN { seed = 7; nodes = 0; ports = 0 }
        $1 == "node" { node = $2; ids[nodes++] = node }
        $1 == "port" { a[ports] = node; b[ports++] = $2 }
        $1 == "label" { label[$2] = $0 }
        function draw(n) { seed = (seed * 48271 + 11) % 2147483647; return seed % n }
        END {
            print "edits"
            for (e = 1; e <= most; e++) {
                id = ids[draw(nodes)]
                p = draw(ports)
                if (e % (most / 128) == 0) print "round"
                else if (e % 3 == 0) print label[id]
                else if (e % 3 == 1) print "weight", a[p], b[p], draw(1000)
                else print "state", id, 0, draw(2), draw(9)
            }
            print "end"
        }'
}

printf '%-44s %6s %6s %6s\n' 'milliseconds' quarter half whole
for kind in path hub grid ring; do
    for n in 8192 16384 32768; do
        [ "$kind" = grid ] && case $n in 8192) n=8100 ;; 32768) n=32761 ;; esac
        network "$kind" "$n" > "$dir/net"
        mv "$dir/net" "$dir/$kind.$n"
    done
    [ "$kind" = grid ] && sizes='8100 16384 32761' || sizes='8192 16384 32768'
    files=$(for n in $sizes; do echo "$dir/$kind.$n"; done)
    # shellcheck disable=SC2086
    set -- $files
    for scheme in tree leader count spt mst; do
        ./pls mark "$scheme" < "$1" > /dev/null || continue
        for file in "$@"; do
            { cat "$file"; ./pls mark "$scheme" < "$file"; } > "$file.$scheme"
        done
        row "mark $scheme, $kind" "$1" "$2" "$3" mark "$scheme"
        row "verify $scheme, $kind" "$1.$scheme" "$2.$scheme" "$3.$scheme" verify "$scheme"
    done
    row "bound mst, $kind" "$1" "$2" "$3" bound mst
    row "verify --json tree, $kind" "$1.tree" "$2.tree" "$3.tree" verify --json tree
done

ring="$dir/ring.32768"
for k in 18 19 20; do
    { cat "$ring.tree"; schedule $((1 << k)) < "$ring"; } > "$dir/schedule.$k"
    for scheme in tree mst; do
        { cat "$ring.$scheme"; edits $((1 << k)) < "$ring.$scheme"; } > "$dir/edits.$scheme.$k"
    done
done
row 'simulate tree, 2^18 to 2^20 events' "$dir/schedule.18" "$dir/schedule.19" "$dir/schedule.20" simulate tree
for scheme in tree mst; do
    row "recheck $scheme, 2^18 to 2^20 edits" "$dir/edits.$scheme.18" "$dir/edits.$scheme.19" \
        "$dir/edits.$scheme.20" recheck "$scheme"
done

: > "$dir/none"
printf '%-44s' 'trial N:7'
for n in 8192 16384 32768; do printf ' %6s' "$(milliseconds "$dir/none" trial "$n:7")"; done
echo

# Two nodes with labels of so many bits.
for k in 25 26 27; do
    digits=$((1 << (k - 2)))
    { printf 'network\nnode 1 - 0 0\nport 2 1\nnode 2 - 0 0\nport 1 1\nend\nlabels\n'
      for id in 1 2; do
          printf 'label %d %d ' "$id" $((1 << k))
          head -c "$digits" /dev/zero | tr '\0' '5'
          echo
      done
      echo end; } > "$dir/long.$k"
done
row 'verify tree, two labels of 2^25 to 2^27 bits' "$dir/long.25" "$dir/long.26" "$dir/long.27" verify tree
