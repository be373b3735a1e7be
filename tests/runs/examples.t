Each bundle of examples/ writes what the file beside it says. `tests/test_examples.py` says why that is right.

  $ set -o pipefail
  $ writes() { mixrev <"$TESTDIR/../../examples/$1.mixal" | diff "$TESTDIR/../../examples/$1.stdout" -; }
  $ writes 01_first
  $ writes 02_step_back_over_a_fault
  [3]
  $ writes 03_breakpoints_back_and_forth
  [3]
  $ writes 04_largest
  $ writes 05_primes
  $ writes 06_cycles
  $ writes 07_inverse
  $ writes 08_easter
  $ writes 09_bill
  $ writes 10_moments
  $ writes 11_who_wrote_it
  $ writes 12_counts_of_primes

No example is forgotten.
  $ ls "$TESTDIR"/../../examples/*.mixal | wc -l
  12
