#!/bin/bash
# Messages a second of `day`, in which each firm is a thread, with the same number of messages from 1, 2, 4 and 8 pairs of an
# investor and a dealer, and of `replay` on the same messages. An investor asks its dealer, which quotes twice on each request, in
# its own time: where the request was not shown to it yet, its quote is refused, and so are requests past the 512th of an investor.
# Needs rt.
#
#     bench/threads.sh [PROGRAM]
# @figure messages a second of `day`, each firm a thread, and of `replay` | none | one pair of firms 201,000 and 187,000, eight pairs 164,000 and 114,000; two cores do not show how a day grows with cores
set -e
. "$(dirname "$0")/program.sh"
messages=6000
day() {  # the configuration and the messages of so many pairs, with `turn` lines behind them or without
    awk -v pairs="$1" -v turns="$2" -v requests=$((messages / 3 / $1)) 'BEGIN {
        print "version = 1\ndate = \"20250314\"\n[[bond]]\nid = \"BONDA0000001\""
        for (p = 1; p <= pairs; p++)
            printf "[[dealer]]\nname = \"DLR%d\"\ntraders = [\"T1\"]\nquotes = 4096\nexposure = 1000000000000000\n", p
        for (p = 1; p <= pairs; p++)
            printf "[[investor]]\nname = \"INV%d\"\ntraders = [\"T1\"]\nrequests = 512\nopen = 1024\nquantity = 5000000\n", p
        print "%%"
        for (n = 1; n <= requests; n++)
            for (p = 1; p <= pairs; p++) {
                printf "say INV%d T1 09:00:00 R 131=q%d|146=1|48=BONDA0000001|22=4|54=1|38=1000|126=20250314-17:00:00|453=1|448=DLR%d|447=D|452=35\n", p, n, p
                if (turns) printf "turn INV%d 3\n", p
                for (q = 1; q <= 2; q++) {
                    printf "say DLR%d T1 09:00:10 S 117=a%d.%d|131=R%d|48=BONDA0000001|22=4|133=99.5\n", p, n, q, n
                    if (turns) printf "turn DLR%d 2\n", p
                }
            }
    }'
}
best() {  # the best time of nine runs, in microseconds
    for run in 1 2 3 4 5 6 7 8 9; do
        from=$(date +%s%N)
        "$program" "$1" < "$2" > /dev/null
        echo $((($(date +%s%N) - from) / 1000))
    done | sort -n | head -1
}
for pairs in 1 2 4 8; do
    day $pairs 1 > "$make/steps"
    day $pairs 0 > "$make/inboxes"
    on_threads=$(best day "$make/inboxes")
    replayed=$(best replay "$make/steps")
    echo "$pairs pairs, $messages messages: day $((messages * 1000000 / on_threads)) a second on $((2 * pairs + 1)) threads," \
        "replay $((messages * 1000000 / replayed)) a second"
done
