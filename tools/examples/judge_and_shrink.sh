# JUDGE is the program of ipcz_judge; if nothing is said, its rules in Python.
judge="${JUDGE:-python3 tools/judge.py}"
record="python3 tools/examples/wrong_portals.py"
cases=$(mktemp -d)
python3 tools/make_cases.py "$cases" --seed 130 --times 1 > "$cases/kinds"
for case in "$cases"/*.json; do $record < "$case" | $judge > "$cases/verdict" || break; done
echo "${case##*/}: $(cat "$cases/verdict")"
python3 tools/shrink.py "$case" -- sh -c "$record | $judge" | tee "$cases/smallest"
$record < "$cases/smallest" | tee "$cases/log"
$judge < "$cases/log"
rm -r "$cases"
