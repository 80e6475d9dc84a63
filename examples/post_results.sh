#!/bin/sh
# Posts the results of a file to a check chart, one pair "found made-up" to a line, and stops at the first post that does
# not let its batch go:
#
#     post_results.sh CHART RESULTS
#
# It ends with the exit status of control_chart, or with 3 if it cannot begin. RESULTS.done gets a line for each posted
# result, so the next run goes on after it. Several runs at once wait for each other.
chart=$1
results=$2
[ $# -eq 2 ] && [ -r "$results" ] && command -v control_chart > /dev/null || exit 3
true 9>> "$chart.posting" >> "$results.done" || exit 3
(
    flock -w 60 9 || exit 3
    control_chart "$chart" show > /dev/null || exit 3
    cp "$chart" "$chart.copy" || exit 3
    posted=$(wc -l < "$results.done")
    tail -n "+$((posted + 1))" "$results" | while read -r found made_up || [ -n "$found" ]; do
        answer=$(control_chart "$chart" post 2 "$found" "$made_up" 0)
        status=$?
        echo "$found $made_up $answer"
        [ "$status" -gt 1 ] || echo "$(date '+%F %T') $found $made_up $answer" >> "$results.done" || exit 3
        [ "$status" -eq 0 ] || exit "$status"
    done
) 9>> "$chart.posting"
