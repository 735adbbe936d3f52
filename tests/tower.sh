#!/bin/sh
# Runs ./tower on document 01's report and on inputs at the edges of its grammar, and compares every byte that it prints and its exit
# status; then with arguments, through a link, from another folder, with closed and full ends and at a terminal.
cd "$(dirname "$(readlink -f "$0")")/.." || exit 2
tower=$PWD/tower
there=$(mktemp -d) || exit 2
trap 'rm -rf "$there"' EXIT

fail() {
    echo "tower.sh: $1" >&2
    exit 1
}

# prints STATUS EXPECTED COMMAND...: the status, and the lines on standard output with a newline after the last.
prints() {
    status=$1 expected=$2
    shift 2
    "$@" >"$there/out" 2>"$there/said"
    got=$?
    [ "$got" -eq "$status" ] || fail "$* ended with $got: $(cat "$there/said")"
    printf '%s' "${expected:+$expected
}" | cmp -s - "$there/out" || fail "expected
$expected
and got
$(cat "$there/out")"
}

# expect WHAT IT PRINTS < INPUT
expect() {
    prints 0 "$1" "$tower"
}

# A line of N discs, all on peg PEG.
line() {
    awk -v n="$1" -v peg="$2" 'BEGIN { printf "["; for (i = 1; i <= n; i++) printf "%s%s", peg, (i < n ? ", " : ""); printf "]\n" }'
}

report='discs 2
direct 3
detour 3
shortest 3
routes 2
0 BC AB CA
1 AC BA CB'
printf '[1, 0]\n[0, 1]\n' >"$there/task"
expect "$report" <"$there/task"
printf '[]\n[]\n' | expect 'discs 0
direct -
detour -
shortest 0
routes 1
0' || exit 1
{ line 60 0; line 60 2; } | expect 'discs 60
direct 1152921504606846975
detour 1729382256910270463
shortest 1152921504606846975
routes 1
0 long' || exit 1
{ line 61 0; line 61 2; } | expect 'refused 2' || exit 1
{ line 85 0; line 85 2; } | expect 'refused 2' || exit 1              # 512 bytes
{ line 85 0; line 85 2; echo; } | expect 'refused 12' || exit 1       # 513 bytes
{ line 169 0; echo '[]'; } | expect 'refused 1' || exit 1
{ line 200 0; line 200 2; } | expect 'refused 12' || exit 1
printf '[0, 3]\n[0, 1]\n' | expect 'refused 3' || exit 1
printf '[9, 9]\n[0]\n' | expect 'refused 1' || exit 1
for text in '' '[0]\n[1]' '[0]\r\n[1]\r\n' '[0,\t1]\n[1, 0]\n' '[ 0]\n[1]\n' '[0,1]\n[1, 0]\n' '[00]\n[11]\n' '[0]\n' '[0]\n[1]\n\n'; do
    printf %b "$text" | expect 'refused 12' || exit 1
done

# The help has the report above; other arguments are refused. Neither builds: a copy beside which nothing is to build does both.
cp tower "$there/alone" || exit 2
"$there/alone" --help >"$there/help" || fail "--help failed"
[ "$(sed -n '/| .\/tower$/,/^$/p' "$there/help" | sed '1d;$d')" = "$(printf '%s\n' "$report" | sed 's/^/    /')" ] ||
    fail "the example of --help is not what is printed"
usage() {
    prints 2 '' "$there/alone" "$@" <"$there/task"
    grep -q '^usage: ' "$there/said" || fail "no usage is said of a wrong argument"
}
usage -h
usage help
usage ''
usage --help --help

# A link to a link, and another folder.
ln -s "$tower" "$there/one" && ln -s one "$there/two" || exit 2
(cd "$there" && prints 0 "$report" ./two <task) || exit 1
(cd / && expect "$report" <"$there/task") || exit 1

# A closed input is an empty one. An output that cannot be written is an error.
expect 'refused 12' <&-
full() {
    "$tower" <"$there/task" >/dev/full
}
closed() {
    "$tower" <"$there/task" >&-
}
for end in full closed; do
    prints 1 '' "$end"
    [ "$(cat "$there/said")" = 'tower: the answer could not be written to standard output' ] || fail "nothing is said of an output that is $end"
done

# At a terminal it says what it waits for, and answers.
if command -v script >/dev/null; then
    { cat "$there/task"; printf '\004'; } | TOWER=$tower script -qec "\"\$TOWER\"" /dev/null | tr -d '\r' >"$there/screen"
    grep -q '^tower: waiting for two lines' "$there/screen" || fail "nothing is said at a terminal"
    grep -q '^0 BC AB CA$' "$there/screen" || fail "nothing is answered at a terminal"
else
    echo "tower.sh: no script: ./tower is not tried at a terminal" >&2
fi
echo "./tower answers as document 01 says"
