#!/bin/sh
# Runs the first example of the README by rt try, without a proof: a script, the schedule of a run, its log, the audit, and a
# chart. Each program is built once, both side by side, and runs two commands, each on the stored text that the one before it
# writes; rt compares what they write with the stored texts, which are shown then. The chart is put into out/try.
set -eu
cd "$(dirname "$0")/../.."
room=$PWD/out/try
rm -rf "$room"
mkdir -p "$room/sciview" "$room/scimem"

# put PROGRAM COMMAND INPUT OUTPUT: a case for rt try, in which the command reads one file and has to write the other.
put() {
    cp "$3" "$room/$1/$2"
    cp "$4" "$room/$1/$2.stdout"
    echo "$2" > "$room/$1/$2.args"
}

# tried PROGRAM: builds the program, runs its cases, and keeps what rt says.
tried() {
    (cd "crates/$1" && rt try --cases "$room/$1") > "$room/$1.said" 2>&1 || touch "$room/$1.failed"
}

# shown PROGRAM: shows what rt said, and ends, if a case of the program failed.
shown() {
    [ ! -e "$room/$1.failed" ] || { cat "$room/$1.said" >&2; exit 1; }
}

echo lawful > "$room/lawful"
put sciview run examples/first.script examples/first.schedule
put sciview chart examples/first.schedule docs/first.svg
put scimem replay examples/first.schedule examples/first.log
put scimem audit examples/first.log "$room/lawful"

echo "Both programs are being built, side by side." >&2
tried sciview &
tried scimem &
wait
shown sciview
shown scimem
cp docs/first.svg out/try/chart.svg

cat examples/first.script
echo "-- sciview run: the schedule of a run"
cat examples/first.schedule
echo "-- scimem replay: its log"
cat examples/first.log
echo "-- scimem audit: whether one memory explains the log"
echo lawful
echo "-- sciview chart: out/try/chart.svg"
echo "Nothing was proved. make run proves scimem and what it stands on, and then runs it."
