#!/bin/sh
# Some days of one retailer with two suppliers and a third that joins, by the commands of edihub over a database file: sh day.sh PROGRAM.
# The file, and those with the keys, are in a temporary folder, which is deleted in the end.
set -eu
program=$(cd "$(dirname "$1")" && pwd)/$(basename "$1")
cd "$(dirname "$0")"
kept=$(mktemp -d)
trap 'rm -rf "$kept"' EXIT
cp -R . "$kept"
cd "$kept"
umask 077
echo retail-key > retail.key
echo alpha-key-1 > alpha.key
echo beta-key-1 > beta.key
echo gamma-key-1 > gamma.key

# prints who acts now, and runs a command; a refusal (status 1) is part of the day
edihub() {
    command=$1
    shift
    echo "\$ edihub $command --db hub.db $*"
    "$program" "$command" --db hub.db "$@" || test $? -eq 1
    echo
}
retailer="--as 5412345000013 --key-file retail.key"
a="--as 4012345500004 --key-file alpha.key"
b="--as 8712345000004 --key-file beta.key"
c="--as 7612345000008 --key-file gamma.key"

echo "Monday: the retailer founds its hub, with the suppliers A and B."
edihub init --register register.toml

echo "Tuesday, 07:30: the retailer orders, of A two articles and of B one."
edihub import $retailer --moment 1748935800 --folder 1-orders

echo "08:10: A reads its mailbox, takes the order, and answers: all of the first article, 20 of the second."
edihub mail $a --do after --n 0
edihub mail $a --do item --n 1
edihub mail $a --do taken --n 1
edihub import $a --moment 1748938200 --folder 2-answer-of-a

echo "09:00: B takes all. Then the retailer cancels ten pieces of it."
edihub import $b --moment 1748941200 --folder 3-answer-of-b
edihub cancel $retailer --supplier 8712345000004 --reference C1 --order 128577 --line 1 --quantity 10

echo "Wednesday: both despatch, B only 40 of its 50."
edihub import $a --moment 1749024000 --folder 4-despatch-of-a
edihub import $b --moment 1749027600 --folder 5-despatch-of-b

echo "10:00: a third supplier, C, joins. The retailer orders of it, and C reads the order."
edihub join $retailer --moment 1749031200 --supplier 7612345000008 --supplier-key-file gamma.key --prefixes 7612345,7612346
edihub import $retailer --moment 1749033000 --folder 6-order-for-c
edihub mail $c --do item --n 1

echo "Thursday: the retailer tells what was received. Of A's first pallet two pieces were not on it, and one is sent back."
edihub import $retailer --moment 1749110400 --folder 7-receipts

echo "Somebody imports Wednesday's despatch once more: it is known, and nothing changes."
edihub import $a --moment 1749114000 --folder 4-despatch-of-a

echo "What each supplier sees in the evening, and what the retailer sees of B."
edihub status $a
edihub status $b
edihub status $c
edihub status $retailer --of 8712345000004

echo "Friday: two pieces stood behind the pallet. The retailer corrects the receipt (function 5), and A sees the new count."
edihub import $retailer --moment 1749196800 --folder 8-correction
edihub status $a
