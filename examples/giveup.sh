#!/bin/sh
# Writes the plan of three.sh to standard output, and calls by which tasks that wait give up, with what this does to the others.
set -eu
sh "$(dirname "$0")/three.sh"

# A call is a letter, a tag and a resource; the bus is resource 0. After T both are 0.
printf 'Q\003\000' # 3 requests the bus, and holds it for 2 ticks
printf 'Q\001\000' # 1 requests it
printf 'Q\002\000' # 2 requests it, behind 1 of its own processor
printf 'T\000\000'
printf 'W\001\000' # 1 gives up: 2 is now the first of processor 0
printf 'T\000\000' # 3 is cut, and 2 holds the bus: the second tick since it asked, of seven that it was told
printf 'Q\001\000' # 1 requests it again, behind 2
printf 'Q\003\000' # 3 requests it again
printf 'W\002\000' # 2 holds the bus, so it cannot give up waiting
printf 'W\003\000' # 3 gives up: processor 1 leaves the queue
printf 'T\000\000'
printf 'T\000\000'
printf 'T\000\000' # 2 is cut; nothing is left of the budget, but nobody else is queued, and 1 holds the bus
