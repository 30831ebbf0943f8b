#!/bin/sh
# Writes a plan file to standard output: two tasks of one processor and one of another share the resource "bus".
# Two-byte numbers have the low byte first. printf takes octal.

# Header: edition 1, 2 processors, 3 tasks, 1 resource, 3 sections,
printf '\001\002\003\001\003\000'
# the offsets of task rows (16), resource rows (40), section rows (44) and names (56), and the file's length (59).
printf '\020\000\050\000\054\000\070\000\073\000'
# Task rows: processor, tag, priority, a zero, period, execution time.
printf '\000\001\002\000\062\000\005\000' # tag 1 on processor 0, priority 2, T 50, C 5
printf '\000\002\001\000\062\000\005\000' # tag 2 on processor 0, priority 1, T 50, C 5
printf '\001\003\001\000\062\000\005\000' # tag 3 on processor 1, priority 1, T 50, C 5
# Resource rows: where the name starts within the names, its length, a zero.
printf '\000\000\003\000' # bus
# Section rows: task, resource, length in ticks.
printf '\000\000\003\000' # tag 1 on bus for 3
printf '\001\000\003\000' # tag 2 on bus for 3
printf '\002\000\002\000' # tag 3 on bus for 2
# Names.
printf 'bus'
