# What a first use writes, from the text of the walk program: the counts of the first two updates, and the reading after the second.
/^update/ { print $5 " bytes recomputed" }
/^ / && ++readings == 2 { print; exit }
