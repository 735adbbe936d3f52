#!/bin/sh
# Tries `make`, ./tower and tools/build in a folder of their own, over empty crates and an `rt` that proves nothing in half a second: that
# builds at once are made one after the other, that nothing is built twice, what is said, and that `make install` asks first.
cd "$(dirname "$(readlink -f "$0")")/.." || exit 2
there=$(mktemp -d) || exit 2
trap 'rm -rf "$there"' EXIT
mkdir "$there/said" && cp -R Makefile tools include towers.pc tower "$there/" || exit 2
cd "$there" || exit 2

fail() {
    echo "build.sh: $1" >&2
    cat said/* >&2
    exit 1
}

# is EXPECTED GOT WHAT
is() {
    [ "$1" = "$2" ] || fail "$3: expected
$1
and got
$2"
}

mkdir -p crates/under/src crates/under/must-fail crates/task/src crates/towers/src || exit 2
printf 'task: under io\ntowers staticlib: under\nunder: # nothing\n' >crates.txt
touch crates/under/src/lib.rt crates/under/must-fail/wrong.edit crates/towers/src/lib.rt crates/task/src/main.rt

# Fails where another one is at work, or, with a file `broken`, always; writes down what it was asked for, and in which crate's folder.
cat >rt <<'END'
#!/bin/sh
crate=${PWD##*/crates/}
cd "$(dirname "$0")" || exit 2
echo "$* $crate" >>asked
mkdir at-work || exit 1
sleep 0.5
rmdir at-work
echo "rt: it is as it is: $(cat)"
[ ! -e broken ] || exit 3
mkdir -p "crates/$crate/out"
: >"crates/$crate/out/newer"
case "$* $crate" in
"run task") printf '#!/bin/sh\necho answered\n' >crates/task/out/task && chmod +x crates/task/out/task ;;
"lib towers") : >crates/towers/out/libtowers.a ;;
esac
END
chmod +x rt || exit 2
unset MAKEFLAGS MAKELEVEL MFLAGS
RT=$there/rt
export RT

# Installing below a file is refused before anything is proved.
: >file
make install DESTDIR='' PREFIX="$there/file/usr" >said/refused 2>&1 && fail "installed below a file"
grep -q "^make: cannot write to $there/file/usr/lib" said/refused || fail "it is not said that the prefix cannot be written"
[ ! -e asked ] || fail "something was proved before that was said"

# The library and the task program at once.
make library >said/make 2>&1 &
while [ ! -e asked ] && kill -0 $! 2>/dev/null; do sleep 0.05; done
is answered "$(./tower 2>said/tower </dev/null)" "./tower beside make"
wait $! || fail "make beside ./tower failed"
is "lib under
lib towers
lib under
run task" "$(cat asked)" "what rt was asked"
is "build: proving and building crates/towers/out/libtowers.a; this takes some minutes the first time; what the prover says goes to target/build/towers.log
build: proving under (1 of 2)
build: proving towers (2 of 2)
build: crates/towers/out/libtowers.a is built" "$(cat said/make)" "make said"
is "build: another build is at work in this folder; waiting for it
build: proving and building crates/task/out/task; this takes some minutes the first time; what the prover says goes to target/build/task.log
build: proving under (1 of 2)
build: proving task (2 of 2)
build: crates/task/out/task is built" "$(cat said/tower)" "./tower said"
is "rt: it is as it is: 
rt: it is as it is: " "$(cat target/build/task.log)" "the prover's words"

# Nothing is built twice, and not because of a wrong program for the prover.
touch crates/under/must-fail/wrong.edit
make library >said/again 2>&1 || fail "make of what is built fails"
./tower >/dev/null 2>>said/again </dev/null || fail "./tower of what is built fails"
is '' "$(cat said/again)" "a second time was said"
is 4 "$(wc -l <asked)" "calls of rt after a second time"

# What changed is built again, silently with -s; so is what was removed.
touch crates/under/src/lib.rt
make -s library >said/quiet 2>&1 || fail "make -s failed"
is '' "$(cat said/quiet)" "make -s said"
is 6 "$(wc -l <asked)" "calls of rt after a change"
rm -r crates/under
tools/build -q towers 2>said/gone && fail "a crate that is gone is not missed"
is 6 "$(wc -l <asked)" "calls of rt after a crate is gone"
is "build: crates/towers/out/libtowers.a was not built: crates/under failed; what the prover said is at the end of target/build/towers.log" "$(tail -n 1 said/gone)" "a crate that is gone said"
mkdir -p crates/under/src && rm crates/task/out/task
tools/build -q task || fail "what was removed is not built again"
[ -x crates/task/out/task ] || fail "what was removed is not there"

# A failure is passed on, and its log is named.
touch broken crates.txt
tools/build -q task 2>said/broken
is 3 $? "the status of a build that fails"
is "rt: it is as it is: 
build: crates/task/out/task was not built: crates/under failed; what the prover said is at the end of target/build/task.log" "$(cat said/broken)" "a failure said"
rm broken
tools/build -q task || fail "after a failure nothing is built"
tools/build -q none 2>said/none
is 2 $? "the status of a build of no crate"
echo "builds at once are made one after the other"
