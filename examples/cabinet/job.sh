# Writes the job, job.txt: sh job.sh >job.txt, with words.sh in a folder of PATH.
. words.sh
set -e

echo '# The last two shelves of a cabinet that has 24. Shelf s, from 0 at the bottom to 23, has three fluents: 3s, its blank is cut; 3s + 1, it'
echo '# is bent; 3s + 2, it is in place. Fluent 72: the cabinet is closed.'
echo
echo '# Kind 1, a wide head: bits 27..24 are 1.'
WideHead 73 5 7 '73 fluents, 5 actions, moments 0 to 7'

echo
echo '# Kind 2, known at moment 0, in a wide job: bit 8 is 1 for false, 7..0 is the fluent. Of shelves 0 to 21 it is known that they are in place.'
shelf=0
while [ "$shelf" -le 21 ]; do
    Known $((3 * shelf + 2)) true "shelf $shelf is in place"
    shelf=$((shelf + 1))
done
for shelf in 22 23; do
    Known $((3 * shelf)) true "the blank of shelf $shelf is cut"
    Known $((3 * shelf + 1)) false "shelf $shelf is bent"
    Known $((3 * shelf + 2)) false "shelf $shelf is in place"
done
Known 72 false 'the cabinet is closed'

echo
echo '# Kind 3, an action, and kind 4, its laws, in a wide job: 9..8 is the role, 7..0 the fluent.'
Action 0 2 'bend shelf 22'
Needs 66 true 'its blank is cut'
Makes 67 true 'it is bent'
Action 1 3 'bend shelf 23'
Needs 69 true 'its blank is cut'
Makes 70 true 'it is bent'
Action 2 1 'put shelf 22 in place'
Needs 67 true 'it is bent'
Needs 65 true 'shelf 21, the one below, is in place'
Makes 68 true 'it is in place'
Action 3 1 'put shelf 23 in place'
Needs 70 true 'it is bent'
Needs 68 true 'shelf 22, the one below, is in place'
Makes 71 true 'it is in place'
Action 4 1 'close the cabinet'
Needs 71 true 'shelf 23, the uppermost, is in place'
Makes 72 true 'it is closed'

echo
echo '# Kind 5, the formulas; in a wide job form 1 has its fluent in 7..0.'
Fluent 68 'formula 0: shelf 22 is in place'
Fluent 71 'formula 1: shelf 23 is in place'
And 0 1 'formula 2: both are'

echo
echo '# Kind 6, the nodes, the last one the root.'
Act 0 'node 0: bend shelf 22'
Act 1 'node 1: bend shelf 23'
Sequence 0 1 'node 2: one after the other'
Act 2 'node 3: put shelf 22 in place'
StartWindow 2 3 2 5 'node 4: node 2 and, beginning 2 to 5 moments after it begins, node 3'
Act 3 'node 5: put shelf 23 in place'
Test 2 'node 6: both are in place'
Act 4 'node 7: close the cabinet'
Sequence 6 7 'node 8: node 6, then node 7'
Sequence 5 8 'node 9: node 5, then node 8'
Sequence 4 9 'node 10, the root: node 4, then node 9'
