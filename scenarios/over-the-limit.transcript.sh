# Prints the transcript of over-the-limit.journal.
printf 'sites 2\n1 taken wq 2\n'
seq -f '%g refused 5 wq' 2 7281
printf '7282 bad 10\nend 1 1\n'
