#!/bin/sh
# Writes a small plan file to standard output: two processors with one task each, which share the resource "bus".
# Two-byte numbers have the low byte first. printf takes octal.

# Header: edition 1, 2 processors, 2 tasks, 1 resource, 2 sections,
printf '\001\002\002\001\002\000'
# the offsets of task rows (16), resource rows (32), section rows (36) and names (44), and the file's length (47).
printf '\020\000\040\000\044\000\054\000\057\000'
# Task rows: processor, tag, priority, a zero, period 50, execution time 5.
printf '\000\012\001\000\062\000\005\000' # tag 10 on processor 0
printf '\001\024\001\000\062\000\005\000' # tag 20 on processor 1
# Resource row: its name starts at 0 of the names and has 3 bytes, a zero.
printf '\000\000\003\000'
# Section rows: task, resource, length in ticks.
printf '\000\000\002\000' # task 0 holds resource 0 for 2 ticks
printf '\001\000\003\000' # task 1 holds it for 3
# Names.
printf 'bus'
