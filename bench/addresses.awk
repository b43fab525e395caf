# From a callgrind file with uncompressed addresses: each address and how often it was executed.
/^calls=/ { called = 1; next }      # the line behind it has what the callee cost, which is counted there
/^0x/ && called { called = 0; next }
/^0x/ { sum[$1] += $2 }
END { for (a in sum) print a, sum[a] }
