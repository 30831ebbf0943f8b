#!/bin/sh
# Writes the input of the worked example to standard output: the plan of bus.sh, then seven calls of three bytes each.
# `sh examples/listing.sh > examples/listing.bin` makes the file that stands beside it.
set -eu
sh "$(dirname "$0")/bus.sh"

# A call is a letter, a tag and a resource. printf takes octal: tag 10 is 012, tag 20 is 024. The bus is resource 0.
printf 'Q\024\000' # 20 requests the bus
printf 'Q\012\000' # 10 requests it
printf 'T\000\000' # three ticks: the tag and the resource are 0
printf 'T\000\000'
printf 'T\000\000'
printf 'R\024\000' # 20 releases it, too late
printf 'R\012\000' # 10 releases it
