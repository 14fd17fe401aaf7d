# Writes the plan, plan.txt: sh plan.sh >plan.txt, with words.sh in a folder of PATH. The facts are those of README.md's table, which was worked
# out by hand; no program that fills plans is used.
. words.sh
set -e

echo '# A plan for the job of job.txt.'
echo
echo '# Kind 9, a start.'
Start 0 0 'bend shelf 22, until 2'
Start 2 1 'bend shelf 23, until 5'
Start 3 2 'put shelf 22 in place, until 4'
Start 5 3 'put shelf 23 in place, until 6'
Start 6 4 'close the cabinet, until 7'

echo
echo '# Kind 10, a known fact, for a wide job: 14..9 moment, 8..1 fluent, bit 0 is 1 for false. What is open has no word.'

# The fact: false up to one moment and true from another one on; between them the fluent is open, and blanks keep the columns.
Fact() { # MOMENT FLUENT FALSE-UNTIL TRUE-FROM
    if [ "$1" -le "$3" ]; then printf '%08x ' $((10 << 28 | $1 << 9 | $2 << 1 | 1))
    elif [ "$1" -ge "$4" ]; then printf '%08x ' $((10 << 28 | $1 << 9 | $2 << 1))
    else printf '         '; fi
}

# The shelves from one to another, which are in place at every moment.
InPlace() { # MOMENT FIRST LAST
    shelf=$2
    while [ "$shelf" -le "$3" ]; do
        Fact "$1" $((3 * shelf + 2)) -1 0
        shelf=$((shelf + 1))
    done
    echo " # shelves $2 to $3: in place"
}

for moment in 0 1 2 3 4 5 6 7; do
    echo "# moment $moment"
    InPlace $moment 0 10
    InPlace $moment 11 21
    Fact $moment 66 -1 0
    Fact $moment 67 0 2
    Fact $moment 68 3 4
    echo ' # shelf 22: whether cut, bent, in place'
    Fact $moment 69 -1 0
    Fact $moment 70 2 5
    Fact $moment 71 5 6
    echo ' # shelf 23: whether cut, bent, in place'
    Fact $moment 72 6 7
    echo ' # whether the cabinet is closed'
done
