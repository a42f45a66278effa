#!/usr/bin/env bash
# Tries each sheet of samples/: the command holds it against its head, and the checking program says of its bytes what the
# line '# expect:' of the head says. Then shows why the incident is refused. The last line is 'N passed, M failed'.
set -uo pipefail
cd "$(dirname "${BASH_SOURCE[0]}")/.." || exit 1

command=build/wennathig check=build/wennathig-check

said=$($command test samples/*.ws)
status=$?
echo "${said%$'\n'*}"
read -r passed _ failed _ <<<"${said##*$'\n'}"
# an end without a count is a failure too
[[ $passed$failed =~ ^[0-9]+$ ]] || passed=0 failed=1
[ "$status" -eq 0 ] || [ "$failed" -gt 0 ] || failed=1

for sample in samples/*.ws; do
    expected=$(sed -n 's/^# expect: //p' "$sample")
    found=$($command asm "$sample" -o - | $check)
    if [ "$found" = "$expected" ]; then
        passed=$((passed + 1))
    else
        failed=$((failed + 1))
        echo "FAILED  $sample: wennathig-check: expected '$expected', found '$found'"
    fi
done

echo
echo "\$ build/wennathig check samples/incident.ws"
$command check samples/incident.ws
echo
echo "$passed passed, $failed failed"
[ "$failed" -eq 0 ]
