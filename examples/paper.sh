#!/bin/sh
# Writes the plan of the paper's example to standard output: section 5, Figure 2. Its P1 and P2 are processors 0 and 1, its tasks
# have the tags 1 to 5 and 11 to 13. The paper gives no C and T; these are those of C6 in document 01, and 10 and 100 elsewhere.
# Two-byte numbers have the low byte first. printf takes octal.

# Header: edition 1, 2 processors, 8 tasks, 3 resources, 12 sections,
printf '\001\002\010\003\014\000'
# the offsets of task rows (16), resource rows (80), section rows (92) and names (140), and the file's length (146).
printf '\020\000\120\000\134\000\214\000\222\000'
# Task rows: processor, tag, priority, a zero, period, execution time.
printf '\000\001\005\000\144\000\012\000' # tag 1 on processor 0, priority 5, T 100, C 10
printf '\000\002\004\000\144\000\012\000' # tag 2 on processor 0, priority 4, T 100, C 10
printf '\000\003\003\000\144\000\012\000' # tag 3 on processor 0, priority 3, T 100, C 10
printf '\000\004\002\000\144\000\012\000' # tag 4 on processor 0, priority 2, T 100, C 10
printf '\000\005\001\000\144\000\012\000' # tag 5 on processor 0, priority 1, T 100, C 10
printf '\001\013\003\000\062\000\006\000' # tag 11 on processor 1, priority 3, T 50, C 6
printf '\001\014\002\000\075\000\005\000' # tag 12, priority 2, T 61, C 5
printf '\001\015\001\000\144\000\012\000' # tag 13, priority 1, T 100, C 10
# Resource rows: where the name starts within the names, its length, a zero.
printf '\000\000\002\000' # R1
printf '\002\000\002\000' # R2
printf '\004\000\002\000' # R3
# Section rows: task, resource, length in ticks.
printf '\000\000\002\000' # tag 1 on R1 for 2
printf '\000\002\003\000' # tag 1 on R3 for 3
printf '\001\000\003\000' # tag 2 on R1 for 3
printf '\002\001\005\000' # tag 3 on R2 for 5
printf '\003\000\005\000' # tag 4 on R1 for 5
printf '\003\002\002\000' # tag 4 on R3 for 2
printf '\004\002\002\000' # tag 5 on R3 for 2
printf '\005\000\003\000' # tag 11 on R1 for 3
printf '\005\001\002\000' # tag 11 on R2 for 2
printf '\006\000\002\000' # tag 12 on R1 for 2
printf '\006\001\001\000' # tag 12 on R2 for 1
printf '\007\000\004\000' # tag 13 on R1 for 4
# Names.
printf 'R1R2R3'
