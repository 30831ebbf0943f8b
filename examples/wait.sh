#!/bin/sh
# Writes the plan of three.sh to standard output, and calls by which the task with tag 2 waits as long as any task there can.
set -eu
sh "$(dirname "$0")/three.sh"

# A call is a letter, a tag and a resource; the bus is resource 0. After T both are 0.
printf 'Q\003\000' # 3 requests the bus, and holds it for 2 ticks
printf 'Q\001\000' # 1 requests it
printf 'Q\002\000' # 2 requests it, behind 1 of its own processor
printf 'T\000\000'
printf 'T\000\000' # 3 is cut, and 1 holds it for 3 ticks
printf 'Q\003\000' # 3 requests it again
printf 'T\000\000'
printf 'T\000\000'
printf 'T\000\000' # 1 is cut; nothing is left of the budget, so processor 0 goes to the tail, and 3 holds the bus
printf 'T\000\000'
printf 'T\000\000' # 3 is cut, and 2 holds the bus: the seventh tick since it asked
