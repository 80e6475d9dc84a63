#!/bin/sh
# A day at the bench: shows every command and its answer. With control_chart on the PATH:
#
#     examples/day.sh             in a temporary folder, which is removed at the end
#     examples/day.sh FOLDER      in FOLDER, which keeps the chart
#
# Every check sample was made up to 1.000 mg/L. A reading is what was found, in thousandths.

command -v control_chart > /dev/null || { echo 'day.sh: control_chart is not on the PATH' >&2; exit 3; }
if [ $# -eq 0 ]; then
    folder=$(mktemp -d) || exit 3
    trap 'rm -rf "$folder"' EXIT
else
    folder=$1
fi
cd "$folder" || exit 3
if [ -e lead.chart ]; then
    echo 'day.sh: lead.chart is there already, and stays as it is' >&2
    exit 3
fi

# Shows a command and runs it.
show() {
    printf '$ %s\n' "$1"
    eval "$1"
}

# Shows and runs a post or a reanalysis, and says what its exit status means.
judge() {
    show "$1"
    case $? in
        0) echo '# status 0: the batch may go' ;;
        1) echo '# status 1: hold the batch' ;;
        2) echo '# status 2: refused, and nothing changed' ;;
        *) exit 3 ;;
    esac
}

# A base from readings, in one step. If a reading is refused, no chart is built.
show 'printf "word 2 %s 1000 0\n" 990 990 990 990 990 990 990 1010 1010 1010 1010 1010 1010 1010 1000 > base.txt'
show 'words=$(control_chart < base.txt) && control_chart lead.chart build 2 $(echo "$words" | cut -d " " -f 2)'
show 'control_chart lead.chart lines'

judge 'control_chart lead.chart post 2 1002 1000 0'
judge 'control_chart lead.chart post 2 1031 1000 0'
judge 'control_chart lead.chart post 2 1001 1000 0'
judge 'control_chart lead.chart reanalyse 2 1030 1000 0'
show 'control_chart lead.chart show | sed "s/ base .* series/ series/"'
