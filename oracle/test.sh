#!/usr/bin/env bash
# Builds the oracle and tries it: the sheet's rows; the bytes of row 12; scripts to words and back; the same script
# from the same seed; that the comparison tells a difference; and that the fixed list is the one that the oracle makes.
set -euo pipefail
cd "$(dirname "$0")"
./build.sh
oracle=../target/oracle/build/release/oracle
trial=../target/oracle/trial
mkdir -p $trial

$oracle sheet sheet/*.txt
$oracle faults | cmp - sheet/faults.out

# The rules' specification writes row 12's script byte by byte.
bytes=$(sed -n '/^script12 =/,/\[\]$/p' ../crates/rules/specs/Sheet.antt | grep -o '0x..' | sed 's/^0/\\/' | tr -d '\n')
printf "$bytes" > $trial/row12.bin
grep -v '^=' sheet/row12.txt | $oracle bytes | cmp - $trial/row12.bin
grep '^=' sheet/row12.txt | cut -c3- > $trial/row12.out
$oracle < $trial/row12.bin | cmp - $trial/row12.out

for seed in $(seq 0 47); do
  $oracle make $seed > $trial/one.bin
  $oracle make $seed | cmp - $trial/one.bin
  if $oracle text $trial/one.bin > $trial/one.txt 2> $trial/bad; then
    $oracle bytes $trial/one.txt | cmp - $trial/one.bin
  else
    $oracle run $trial/one.bin | cmp - $trial/bad
  fi
done
$oracle compare $oracle 0 48
if $oracle compare cat 0 3 > $trial/cat 2>&1; then echo "a difference was not told" >&2; exit 1; fi
$oracle list 0 1100 sheet/row*.txt sheet/ack.txt sheet/overtaken.txt sheet/storage.txt sheet/untouched.txt | cmp - ../crates/test_fixed_list/data/list.bin
echo "the oracle is as expected"
