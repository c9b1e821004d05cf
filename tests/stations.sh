#!/usr/bin/env bash
# Stations over a broker (docs/STATIONS.md): the protocol without a broker, by a simulation, a model and seeded faults of both; and the
# program bhtf-mqtt with a real mosquitto on a free port of this machine, which is ended by its process id. Where something is waited
# for, it is asked for again and again; how long decides nothing but that a test has failed. The last line is 'N passed, M failed'.
#   LIB=path         the library, from the repository's root; crates/station/out/libstation.a unless given
#   BHTF=path        a command that is already built, with bhtf-mqtt and libbhtf.a beside it, in place of building them
#   STEPS=, SEED=    of the simulation
#   tests/stations.sh PART..   only these: protocol faults model broker keys example units measures
set -u
export LC_ALL=C.UTF-8
cd "$(dirname "$0")/.." || exit 2
. tests/tally.sh
root=$PWD
work=$(mktemp -d)
pids=()
ended() {
  local pid
  for pid in "${pids[@]}"; do kill -9 "$pid" 2>/dev/null; done
  wait 2>/dev/null
  rm -rf "$work"
}
trap ended EXIT
[ "$#" -gt 0 ] || set -- protocol faults model broker keys example units measures
PATH=$PATH:/usr/sbin
random=0
faults=0

build() {
  if [ -n "${BHTF:-}" ]; then
    mkdir "$work/bin" && ln -s "$(realpath "$BHTF")" "$(dirname "$(realpath "$BHTF")")"/{bhtf-mqtt,libbhtf.a} "$work/bin"
    return
  fi
  make -s -C host OUT="$work/bin" ${LIB:+LIB="$(realpath "$LIB")"} "$work/bin/bhtf" "$work/bin/libbhtf.a" >"$work/said" 2>&1 &&
    make -s -C host/mqtt OUT="$work/bin" >>"$work/said" 2>&1 && [ -x "$work/bin/bhtf-mqtt" ] || { tail -n 5 "$work/said"; return 1; }
}
test_that "the programs build" build
[ "$failed" -eq 0 ] || { tally; exit 1; }
PATH=$work/bin:$PATH
core=(wire object squash station office sum)

# compile FOLDER OUT FILE..: a program over the protocol's files of a folder
compile() {
  local from=$1 out=$2 name sources=()
  shift 2
  for name in "${core[@]}"; do sources+=("$from/$name.c"); done
  # shellcheck disable=SC2086
  gcc -std=c11 -Wall -Wextra -Werror -pedantic -O2 -g -D_DEFAULT_SOURCE ${options:-} -Ihost/include -I"$from" "$@" "${sources[@]}" \
    "$work/bin/libbhtf.a" ${libraries:-} -o "$out"
}

# ---- without a broker ----

# lie CASE..: messages that lie, told to a station and an office
lie() { ASAN_OPTIONS=detect_leaks=0 "$work/hostile" "$@" >"$work/said" 2>&1 || { grep -E 'FAILED|ERROR|runtime error|#[0-4] ' "$work/said"; return 1; }; }

part_protocol() {
  local steps=${STEPS:-600000} seed=${SEED:-$((RANDOM * 32768 + RANDOM))} n
  options=-DWITH_ZSTD libraries=-lzstd test_that "the cases build" compile host/mqtt "$work/cases" tests/stations/cases.c
  n=$("$work/cases") && n=$(tail -n 1 <<<"$n") && passed=$((passed + ${n%% *})) || { failed=$((failed + 1)); echo "FAILED: $n"; }
  options='-DWITH_ZSTD -fsanitize=address,undefined -fno-sanitize-recover=all' libraries=-lzstd test_that "the lies build" \
    compile host/mqtt "$work/hostile" tests/stations/hostile.c
  for n in $("$work/hostile"); do test_that "a lie: $n" lie "$n"; done
  test_that "lies by chance, seed $seed" lie random 6000 "$seed"
  options='-fsanitize=address,undefined -fno-sanitize-recover=all' test_that "the simulation builds with sanitizers" \
    compile host/mqtt "$work/simulate-sanitized" tests/stations/simulate.c
  test_that "the simulation builds" compile host/mqtt "$work/simulate" tests/stations/simulate.c
  for program in simulate simulate-sanitized; do
    ASAN_OPTIONS=detect_leaks=0 "$work/$program" "$steps" "$seed" >"$work/said" 2>&1 || { failed=$((failed + 1)); echo "FAILED: $program"; }
    cat "$work/said"
    n=$(sed -n 's/^of these \([0-9]*\) random$/\1/p' "$work/said")
    passed=$((passed + ${n:-0}))
    random=$((random + ${n:-0}))
    steps=$((steps / 10))
  done
  # the words of 60 stations are more than the broker's queue to the office holds
  options=-DMANY=60 test_that "the simulation of 60 stations builds" compile host/mqtt "$work/simulate-60" tests/stations/simulate.c
  for n in 3 "$seed"; do test_that "60 stations, seed $n" simulate_60 "$n"; done
}

simulate_60() { "$work/simulate-60" 20000 "$1" >"$work/said" 2>&1 || { cat "$work/said"; return 1; }; }

# fault WHAT FILE OLD NEW: the simulation finds this fault within its steps. A simulation that crashes has found nothing: what it asserts must say so.
fault() {
  local what=$1 file=$2 old=$3 new=$4 seed status
  rm -rf "$work/faulty"
  cp -r host/mqtt "$work/faulty"
  OLD=$old NEW=$new python3 - "$work/faulty/$file" <<'END' || { failed=$((failed + 1)); echo "FAILED: the fault '$what' fits nowhere"; return; }
import os, sys
text = open(sys.argv[1]).read()
old = os.environ["OLD"]
if text.count(old) != 1:
    sys.exit(1)
open(sys.argv[1], "w").write(text.replace(old, os.environ["NEW"]))
END
  options=-Wno-error compile "$work/faulty" "$work/faulty/simulate" tests/stations/simulate.c 2>"$work/said" ||
    { failed=$((failed + 1)); echo "FAILED: the fault '$what' does not build"; return; }
  faults=$((faults + 1))
  echo "fault: $what"
  for seed in 1 2 3; do
    timeout 300 "$work/faulty/simulate" 400000 $seed >"$work/said" 2>&1
    status=$?
    if [ "$status" -gt 1 ]; then
      failed=$((failed + 1))
      echo "FAILED: status $status of the simulation with: $what"
      return
    fi
    if [ "$status" -eq 1 ] && grep -q '^FAILED: ' "$work/said"; then
      passed=$((passed + 1))
      return
    fi
  done
  failed=$((failed + 1))
  echo "FAILED: not found: $what"
}

part_faults() {
  fault "an older state is taken" station.c '    if ((s->placed && !is_next(s, &h.place, &s->at)) ||
        (s->has_goal && is_older(&h.place, &s->goal.place)))
        return;' ''
  fault "sums are not looked at" station.c '    return memcmp(a, b, WIRE_SUM) == 0;' '    return a != b;'
  fault "records are applied in any order" station.c 'if (g->kind != RECORD || !g->done || g->from != s->seq)' 'if (g->kind != RECORD || !g->done)'
  fault "what was asked for is not asked for again" station.c 'if (!has_chunk(s, g, k))
                ask(s, g, k);
        g->probed' 'g->probed'
  fault "the head is published in front of its record" office.c '    publish_state(o, due);
    publish_head(&kept);' '    publish_head(&kept);
    if (due || o->at.seq % 3) publish_state(o, due);'
  fault "an office that was restored goes on" office.c '    if (highest_term(o) == UINT32_MAX) {' '    if (why == OFFICE_AHEAD)
        return;
    if (highest_term(o) == UINT32_MAX) {'
  fault "what a station lacks is not published again" office.c '    if (o->repaired || !o->known)
        return;' '    if (o->ready || !o->known)
        return;'
  fault "an office without a state publishes what a station lacks" office.c '    if (o->repaired || !o->known)
        return;' '    if (o->repaired)
        return;'
  fault "records are trimmed while they are told of" office.c 'delete_records(o, was, base);' 'delete_records(o, was, o->at.seq);'
  fault "the state is kept after it is told of" office.c '    if (due < 0 || save(&kept, shadow) != 0) {' '    publish_head(&kept);
    if (due < 0 || save(&kept, shadow) != 0) {'
}

# ---- the model ----

# model NUMBER: what spin says of the model with that fault; 0 if it found nothing wrong
model() {
  mkdir -p "$work/model$1"
  (
    cd "$work/model$1" &&
      spin -DFAULT="$1" -a "$root/tests/stations/model.pml" >said 2>&1 &&
      gcc -O2 -w -DSAFETY -DCOLLAPSE -DMEMLIM=3000 -o pan pan.c && ./pan -m100000 -n >found 2>&1 &&
      grep -q 'errors: 0' found && ! grep -q 'max search depth too small\|out of memory\|Search not completed' found
  )
}

part_model() {
  test_that "the model: three stations, a lossy broker" model 0
  sed -nE 's/^ *([0-9]+) states, stored.*/\1 states of the model/p' "$work/model0/found" 2>/dev/null
  for n in 1 2 3 4; do
    faults=$((faults + 1))
    missed() { ! model "$n"; }
    test_that "the model's fault $n is found" missed
  done
}

# ---- a broker ----

# until SECONDS COMMAND..: again and again until it is so; the seconds only say when a test has failed
until_so() {
  local end=$((SECONDS + $1))
  shift
  until "$@" >"$work/until" 2>&1; do
    [ "$SECONDS" -lt "$end" ] || { cat "$work/until"; return 1; }
    sleep 0.05
  done
}

free_port() { python3 -c 'import socket; s = socket.socket(); s.bind(("127.0.0.1", 0)); print(s.getsockname()[1])'; }
listening() { (exec 3<>"/dev/tcp/127.0.0.1/$1") 2>/dev/null; }

# start_broker [LINES]: on $port; its process is $broker. Keeps what is retained only where lines say so.
start_broker() {
  printf '%s\n' "${1:-listener $port 127.0.0.1
allow_anonymous true}" >broker.conf
  mosquitto -c broker.conf >>broker.log 2>&1 &
  broker=$!
  pids+=("$broker")
  until_so 20 listening "$port"
}
end_broker() {
  kill "-${1:-TERM}" "$broker"
  wait "$broker" 2>/dev/null
}

# background NAME COMMAND..: its lines in NAME.log; its own process, and no shell's, is $pid
background() {
  local name=$1
  shift
  (
    replace=exec
    [ "$(type -t "$1")" = function ] || exec "$@"
    "$@"
  ) >"$name.log" 2>&1 &
  pid=$!
  pids+=("$pid")
}
end_of() {
  kill "-${2:-TERM}" "$1"
  wait "$1" 2>/dev/null
}
mqtt() { ${replace:-} bhtf-mqtt "$1" "${@:2}" -h 127.0.0.1 -p "$port" --site site --backoff 1 --wait 60; }
publish() { mqtt publish "$@" --file file 2>>published.log; }
follow() { mqtt follow "$@" --file file 2>>followed.log; }
follow_as() { background "$1" mqtt follow "$1.bhtf" --file file --name "$1" "${@:2}"; }
equal() { cmp office.bhtf "$1.bhtf"; }
add() {
  count=$((count + 1))
  bhtf add office.bhtf "P-$count" -E $((1000 + 7 * count)).123 -N $((2000 + 3 * count)).456 -H 10.5 -t "point $count" --allow-far --quiet
}
logged() { grep -q "$2" "$1.log"; }
exits() {
  local want=$1 status
  shift
  "$@" >exits.log 2>&1
  status=$?
  [ "$status" -eq "$want" ] || { echo "status $status, not $want"; tail -n 3 exits.log; return 1; }
}
office() { bhtf create office.bhtf --key-size 16 --slots "${1:-512}" --quiet; }

part_broker() {
  local here=$work/broker office_pid a b
  mkdir "$here"
  cd "$here" || return
  count=0
  port=$(free_port)
  test_that "mosquitto starts" start_broker
  office
  add

  # -- the plain way
  test_that "publish --once" publish office.bhtf --once
  test_that "follow --once" follow a.bhtf --name a --once
  test_that "a new station has the file" equal a
  add
  test_that "another change is published" publish office.bhtf --once
  test_that "status is 1 where a station is behind" exits 1 mqtt status --file file
  test_that "and says so" logged exits '^a .* 1 behind$'
  test_that "it follows" follow a.bhtf --name a --once
  test_that "and has the file" equal a
  test_that "status is 0 where all are equal" exits 0 mqtt status --file file
  test_that "a carried copy needs no snapshot" bash -c 'cp office.bhtf b.bhtf'
  test_that "it is taken as it is" follow b.bhtf --name b --once
  test_that "no snapshot was fetched" bash -c '! ls b.bhtf-parts 2>/dev/null'

  # -- live
  background office mqtt publish office.bhtf --file file
  office_pid=$pid
  follow_as a
  a=$pid
  follow_as b
  b=$pid
  for _ in 1 2 3 4 5; do add; done
  test_that "a station has five changes" until_so 60 equal a
  test_that "the other has them, too" until_so 60 equal b
  bhtf delete office.bhtf P-3 --quiet
  bhtf compact office.bhtf --quiet
  test_that "a compaction arrives" until_so 60 equal a
  cp office.bhtf kept.bhtf
  add
  bhtf delete office.bhtf "P-$count" --quiet
  test_that "there and back" until_so 60 equal a

  # -- the broker is killed, and comes back with nothing
  end_broker KILL
  add
  start_broker
  test_that "behind a broker that was killed: a" until_so 90 equal a
  test_that "behind a broker that was killed: b" until_so 90 equal b

  # -- the station is killed and misses changes
  end_of "$a" KILL
  add
  add
  follow_as a
  a=$pid
  test_that "a station that was killed catches up" until_so 60 equal a

  # -- the office is killed
  end_of "$office_pid" KILL
  add
  background office mqtt publish office.bhtf --file file
  office_pid=$pid
  test_that "an office that was killed goes on" until_so 60 equal a
  test_that "in its line" bash -c '! grep -q "new line" office.log'
  test_that "a second one on the machine is refused" exits 1 mqtt publish office.bhtf --file file --once

  # -- another length, with a journal's name beside the copy
  bhtf create larger.bhtf --key-size 16 --slots 1024 --quiet
  bhtf add larger.bhtf first -E 1 -N 2 -H 3 --quiet
  mv larger.bhtf office.bhtf
  count=100
  add
  test_that "another length arrives" until_so 60 equal a
  test_that "as a new line" logged office 'new line .*: the file has another length'

  # -- a changed copy is not ours
  end_of "$b"
  until_so 60 equal a
  follow b.bhtf --name b --once 2>/dev/null
  bhtf add b.bhtf mine -E 9 -N 9 -H 9 --allow-far --quiet
  cp b.bhtf mine.bhtf
  add
  until_so 60 equal a
  test_that "a changed copy is refused" exits 1 follow b.bhtf --name b --once
  test_that "and stays" cmp b.bhtf mine.bhtf
  test_that "unless it may be replaced" follow b.bhtf --name b --once --replace
  test_that "then it is the file" equal b

  # -- a backup restored: the broker is ahead
  end_of "$office_pid"
  rm -rf backup
  mkdir backup
  cp -r office.bhtf office.bhtf-mqtt backup/
  add
  publish office.bhtf --once 2>/dev/null
  until_so 60 equal a
  rm -rf office.bhtf-mqtt
  cp -r backup/office.bhtf-mqtt backup/office.bhtf .
  add
  test_that "an office restored from a backup" publish office.bhtf --once
  test_that "begins a new line" grep -q "new line .*states that are not known" published.log
  test_that "stations follow it" until_so 60 equal a

  # -- and with an empty broker: a station is ahead
  rm -rf backup
  mkdir backup
  cp -r office.bhtf office.bhtf-mqtt backup/
  add
  publish office.bhtf --once 2>/dev/null
  until_so 60 equal a
  end_broker KILL
  rm -rf office.bhtf-mqtt
  cp -r backup/office.bhtf-mqtt backup/office.bhtf .
  start_broker
  background office mqtt publish office.bhtf --file file
  office_pid=$pid
  test_that "stations that are ahead of a restored office follow it" until_so 90 equal a
  test_that "in a new line" until_so 60 logged office 'new line .*states that are not known'

  # -- two offices
  mkdir -p other
  cp office.bhtf other/
  test_that "another office is refused" exits 1 mqtt publish other/office.bhtf --file file --once
  test_that "and told how" logged exits 'take-over'
  bhtf add other/office.bhtf theirs -E 77 -N 77 -H 7 --allow-far --quiet
  test_that "it takes over when it is told to" publish other/office.bhtf --once --take-over
  taken() { cmp other/office.bhtf a.bhtf; }
  test_that "stations follow it" until_so 60 taken
  stopped() { ! kill -0 "$office_pid" 2>/dev/null; }
  test_that "the old one stops" until_so 60 stopped
  add
  test_that "and is refused when it comes back" exits 1 publish office.bhtf --once
  test_that "the stations stay" taken

  # -- a forged head, and rubbish in its place
  mv other/office.bhtf office.bhtf
  rm -rf office.bhtf-mqtt
  mv other/office.bhtf-mqtt office.bhtf-mqtt
  background office mqtt publish office.bhtf --file file
  office_pid=$pid
  until_so 60 logged office 'ready'
  mosquitto_pub -h 127.0.0.1 -p "$port" -r -q 1 -t bhtf/1/site/file/head -m 'rubbish'
  test_that "rubbish in the head's place is written over" until_so 60 logged office 'published again'
  count=200
  add
  test_that "and stations go on" until_so 60 equal a

  # -- a damaged chunk at the broker is repaired
  cp office.bhtf last.bhtf
  name=$(mosquitto_sub -h 127.0.0.1 -p "$port" -t 'bhtf/1/site/file/c/#' -C 1 -F %t -W 20)
  printf 'damage' >damage
  mosquitto_pub -h 127.0.0.1 -p "$port" -r -q 1 -t "$name" -f damage
  test_that "a damaged stretch is asked for again" follow c.bhtf --name c --once
  test_that "and the copy is right" equal c
  # -- and one that is gone
  name=$(mosquitto_sub -h 127.0.0.1 -p "$port" -t 'bhtf/1/site/file/c/#' -C 1 -F %t -W 20)
  mosquitto_pub -h 127.0.0.1 -p "$port" -r -q 1 -t "$name" -n
  rm -f c.bhtf c.bhtf-place
  add
  until_so 60 equal a
  test_that "a stretch that is gone is published again" follow c.bhtf --name c --once
  test_that "and the copy is right" equal c

  # -- status shows who is there; a killed station is down by its will
  test_that "a running station is up" bash -c "bhtf-mqtt status -h 127.0.0.1 -p $port --site site --file file | grep -q '^a  *up '"
  end_of "$a" KILL
  is_down() { mqtt status --file file | grep -q '^a  *down '; }
  test_that "a killed one is down" until_so 60 is_down
  end_of "$office_pid"
  test_that "an office that ended says so" bash -c "bhtf-mqtt status -h 127.0.0.1 -p $port --site site --file file | grep -q '^office  *down '"

  # -- a slow line that is cut: what was fetched stays
  slow_line
  end_broker

  secured
  cd "$root" || return
}

# A snapshot over a line of 40 kB a second that is cut after each 12 kB, with changes meanwhile.
slow_line() {
  local line i down payload
  for i in $(seq 600); do echo "L-$i,$((9000 + i)).25,$((7000 + i * 2)).5,4,$(printf '%s' "$i" | sha256sum | cut -c1-60)"; done >list.csv
  { echo name,easting,northing,height,note; cat list.csv; } >named.csv
  test_that "600 points for it" bhtf import office.bhtf named.csv --quiet
  publish office.bhtf --once --chunk 1024 --take-over 2>/dev/null
  background line python3 "$root/tests/stations/proxy.py" line.port "$port" line.count 40000 12000
  line=$pid
  until_so 20 test -s line.port
  over_line() { bhtf-mqtt follow slow.bhtf -h 127.0.0.1 -p "$(cat line.port)" --site site --file file --name slow --once --backoff 1 --wait 120 2>slow.log; }
  test_that "a snapshot over a slow line that is cut" over_line
  test_that "is the file" equal slow
  test_that "the line was cut at least twice" [ "$(grep -c 'connected to' slow.log)" -ge 3 ]
  end_of "$line"
  read -r down _ <line.count
  echo "over the line that was cut: $down bytes down"
}

# TLS, ACL, passwords, signatures
secured() {
  mkdir tls acl
  (
    cd tls &&
      openssl req -x509 -newkey ec -pkeyopt ec_paramgen_curve:P-256 -nodes -keyout ca.key -out ca.crt -subj /CN=ca -days 2 &&
      openssl req -newkey ec -pkeyopt ec_paramgen_curve:P-256 -nodes -keyout server.key -out server.csr -subj /CN=localhost &&
      printf 'subjectAltName=DNS:localhost,IP:127.0.0.1\n' >ext &&
      openssl x509 -req -in server.csr -CA ca.crt -CAkey ca.key -CAcreateserial -out server.crt -days 2 -extfile ext &&
      chmod a+r server.key
  ) >tls.log 2>&1
  port=$(free_port)
  mosquitto_passwd -b -c acl/passwords office office-word 2>/dev/null
  mosquitto_passwd -b acl/passwords a a-word 2>/dev/null
  mosquitto_passwd -b acl/passwords stranger s-word 2>/dev/null
  cat >acl/rights <<'END'
user office
topic readwrite bhtf/1/site/file/#
user a
topic read bhtf/1/site/file/#
END
  sed -n '/^```acl$/,/^```$/{/^```/d;p}' "$root/docs/STATIONS.md" >acl/page
  [ -s acl/page ] && cp acl/page acl/rights
  chmod 600 acl/passwords acl/rights
  chown mosquitto acl/passwords acl/rights 2>/dev/null
  chmod a+rx "$work" . acl tls
  start_broker "listener $port 127.0.0.1
allow_anonymous false
password_file $PWD/acl/passwords
acl_file $PWD/acl/rights
cafile $PWD/tls/ca.crt
certfile $PWD/tls/server.crt
keyfile $PWD/tls/server.key"
  printf 'password = %s\n' office-word >office.conf
  printf 'username = a\npassword = a-word\n' >a.conf
  printf 'username = stranger\npassword = s-word\n' >stranger.conf
  rm -rf ./*-mqtt ./*-place
  secure=(-h 127.0.0.1 -p "$port" --site site --file file --cafile tls/ca.crt --backoff 1 --wait 60)
  test_that "a password among the arguments is refused" exits 78 bhtf-mqtt publish office.bhtf --once "${secure[@]}" -u office -P office-word
  test_that "a wrong password is refused" exits 1 env BHTF_MQTT_PASSWORD=no bhtf-mqtt publish office.bhtf --once "${secure[@]}" -u office
  test_that "by TLS, with a password from a file" bhtf-mqtt publish office.bhtf --once "${secure[@]}" -u office -c office.conf
  rm -f a.bhtf
  test_that "a station with few rights" bhtf-mqtt follow a.bhtf --once --name a "${secure[@]}" -c a.conf
  test_that "has the file" equal a
  mkdir -p wrong
  cp office.bhtf wrong/
  test_that "an office without rights does not say that it published" exits 2 bhtf-mqtt publish wrong/office.bhtf --once "${secure[@]}" --wait 4 -c stranger.conf
  test_that "another authority's certificate is refused" bash -c "cd tls && openssl req -x509 -newkey ec -pkeyopt ec_paramgen_curve:P-256 -nodes -keyout o.key -out o.crt -subj /CN=o -days 2 2>/dev/null"
  test_that "by a station that has another" exits 2 bhtf-mqtt follow n.bhtf --once --name a -h 127.0.0.1 -p "$port" --site site --file file --cafile tls/o.crt --backoff 1 --wait 3 -c a.conf

  # a signature
  openssl genpkey -algorithm ed25519 -out sign.key 2>/dev/null
  openssl pkey -in sign.key -pubout -out sign.pub
  openssl genpkey -algorithm ed25519 -out forger.key 2>/dev/null
  rm -f a.bhtf ./*-place
  test_that "a head without a signature is refused where one is asked for" exits 1 bhtf-mqtt follow a.bhtf --once --name a "${secure[@]}" --wait 3 -c a.conf --verify sign.pub
  count=300
  add
  test_that "a signed head is published" bhtf-mqtt publish office.bhtf --once "${secure[@]}" -u office -c office.conf --sign sign.key
  test_that "and taken" bhtf-mqtt follow a.bhtf --once --name a "${secure[@]}" -c a.conf --verify sign.pub
  test_that "and is the file" equal a
  add
  bhtf-mqtt publish office.bhtf --once "${secure[@]}" -u office -c office.conf --sign forger.key 2>/dev/null
  test_that "one of another key is refused" exits 1 bhtf-mqtt follow a.bhtf --once --name a "${secure[@]}" --wait 3 -c a.conf --verify sign.pub
  test_that "a chunk slower than half of keepalive is refused" exits 78 bhtf-mqtt publish office.bhtf "${secure[@]}" --chunk 4096 --rate 100 -k 60
  test_that "a word that is none" exits 78 bhtf-mqtt follow a.bhtf --site 'a/b'
  test_that "a setting that is none" bash -c "echo colour = red >bad.conf; bhtf-mqtt status -c bad.conf --site s --file f 2>/dev/null; [ \$? -eq 78 ]"
  end_broker
}

# ---- shared keys ----

# A broker that knows stations by a key that both have, and gives each the rights of its identity; keys stand in files alone.
part_keys() {
  local here=$work/keys key other line it
  mkdir "$here"
  cd "$here" || return
  count=0
  port=$(free_port)
  key=$(openssl rand -hex 16)
  other=$(openssl rand -hex 16)
  printf 'office:%s\na:%s\n' "$key" "$other" >keys
  sed -n '/^```acl$/,/^```$/{/^```/d;p}' "$root/docs/STATIONS.md" >rights
  chmod 600 keys rights
  chown mosquitto keys rights 2>/dev/null
  chmod a+rx "$work" .
  test_that "a broker with shared keys starts" start_broker "listener $port 127.0.0.1
allow_anonymous true
psk_hint site
psk_file $PWD/keys
use_identity_as_username true
acl_file $PWD/rights"
  office
  add
  printf 'psk = %s\n' "$key" >office.conf
  printf 'psk = %s\n' "$other" >a.conf
  line=(-h 127.0.0.1 -p "$port" --site site --file file --backoff 1 --wait 60)
  test_that "a shared key among the arguments is refused" exits 78 bhtf-mqtt publish office.bhtf --once "${line[@]}" --psk "$key"
  test_that "as one word, too" exits 78 bhtf-mqtt publish office.bhtf --once "${line[@]}" "--psk=$key"
  test_that "and not repeated in what is said" bash -c "! grep -q $key exits.log"
  test_that "without a key there is no connection" exits 2 bhtf-mqtt publish office.bhtf --once "${line[@]}" --wait 3
  test_that "a wrong key is refused" exits 2 bhtf-mqtt publish office.bhtf --once "${line[@]}" --wait 3 -c a.conf
  test_that "so is an identity that the broker does not know" exits 2 bhtf-mqtt publish office.bhtf --once "${line[@]}" --wait 3 -c office.conf --psk-identity nobody
  test_that "a key that is not hexadecimal is a wrong setting" bash -c "echo psk = word >bad.conf; bhtf-mqtt status ${line[*]} -c bad.conf 2>/dev/null; [ \$? -eq 78 ]"
  test_that "with the key the office publishes" bhtf-mqtt publish office.bhtf --once "${line[@]}" -c office.conf -q
  test_that "a station with its own key follows" bhtf-mqtt follow a.bhtf --once "${line[@]}" --name a -c a.conf -q
  test_that "and has the file" equal a
  test_that "a name of its own beside the identity" bhtf-mqtt follow a.bhtf --once "${line[@]}" --name a --psk-identity a -c a.conf -q
  cp office.bhtf mine.bhtf
  add
  test_that "a station's key does not make an office" exits 2 bhtf-mqtt publish mine.bhtf --once "${line[@]}" --wait 3 --take-over -c a.conf --psk-identity a
  background office bhtf-mqtt publish office.bhtf "${line[@]}" -c office.conf
  it=$pid
  background a bhtf-mqtt follow a.bhtf "${line[@]}" --name a -c a.conf
  test_that "live, too" until_so 60 equal a
  test_that "no key among the arguments of a process" bash -c "! cat /proc/$pid/cmdline /proc/$it/cmdline | grep -q '$key\|$other'"
  test_that "nor in its environment" bash -c "! cat /proc/$pid/environ /proc/$it/environ | grep -q '$key\|$other'"
  test_that "nor in what they say" bash -c "! cat ./*.log | grep -q '$key\|$other'"
  end_of "$pid"
  end_of "$it"
  end_broker
  cd "$root" || return
}

# ---- the example ----

# The station of host/examples, with a file for its flash: the copy's place in 48 bytes, then its image.
part_example() {
  local here=$work/example office_pid it lines
  mkdir "$here"
  cd "$here" || return
  count=0
  port=$(free_port)
  start_broker
  office
  for _ in 1 2 3 4 5; do add; done
  test_that "the example builds of the files that it names" gcc -std=c11 -Wall -Wextra -Werror -pedantic -O2 -D_DEFAULT_SOURCE -DWITH_ZSTD \
    -I"$root/host/mqtt" -I"$root/host/include" "$root/host/examples/follow_mqtt.c" "$root"/host/mqtt/{wire,object,station,sum}.c \
    "$work/bin/libbhtf.a" -lmosquitto -lzstd -o example
  background office mqtt publish office.bhtf --file file
  office_pid=$pid
  in_flash() { tail -c +49 flash | cmp - office.bhtf; }
  start_example() {
    background radio ./example 127.0.0.1 "$port" bhtf/1/site/file/ radio flash
    it=$pid
  }
  start_example
  test_that "the example fetches the file" until_so 60 in_flash
  for _ in 1 2 3; do add; done
  test_that "follows through three points more" until_so 60 in_flash
  bhtf delete office.bhtf P-3 --quiet
  test_that "and one that is deleted" until_so 60 in_flash
  test_that "it prints the file's sum" until_so 20 grep -q "sum $(sha256sum office.bhtf | cut -d' ' -f1)" radio.log
  is_equal() { mqtt status --file file | grep -q '^radio .* equal$'; }
  test_that "status calls it equal" until_so 20 is_equal
  end_of "$it" KILL
  cp flash before
  add
  bhtf delete office.bhtf P-4 --quiet
  test_that "while it is dead its flash stays" cmp flash before
  start_example
  test_that "one that was killed goes on" until_so 60 in_flash
  test_that "from where its flash was" bash -c "[ \$(grep -c '^state' radio.log) -le 2 ]"
  lines=$(grep -c '^state' radio.log)
  end_broker KILL
  add
  start_broker
  test_that "it comes back to a broker that was killed" until_so 90 in_flash
  test_that "and says so" bash -c "[ \$(grep -c '^state' radio.log) -gt $lines ]"
  test_that "it refused nothing" bash -c "! grep refused radio.log"
  end_of "$it"
  end_of "$office_pid"
  end_broker
  cd "$root" || return
}

# ---- units for systemd ----

# The units are looked at by systemd's own reader, and their commands are run as they stand there, by a user without rights, with what
# systemd would give them: credentials, a folder for the state, a socket to be told by. No systemd runs here; what the units forbid is
# compared with what the programs were seen to do.
part_units() {
  local here=$work/units units unit it follower status words traced
  mkdir "$here"
  cd "$here" || return
  cp -aL "$work/bin" built
  units=root/usr/local/lib/systemd/system
  test_that "make install puts program, units and user in place" make -s -C "$root/host/mqtt" OUT="$here/built" DESTDIR="$here/root" install
  mkdir -p root/usr/lib/systemd/system
  cp -L /usr/lib/systemd/system/*.{target,slice} root/usr/lib/systemd/system 2>/dev/null
  # verified UNIT: systemd has nothing to say of it
  verified() {
    systemd-analyze verify --man=no --root="$here/root" "$1" >verify.log 2>&1
    status=$?
    [ "$status" -eq 0 ] && [ ! -s verify.log ] || { cat verify.log; return 1; }
  }
  for unit in publish follow; do test_that "systemd reads bhtf-$unit@" verified "bhtf-$unit@site.service"; done
  unverified() { ! verified "$1" >/dev/null; }
  sed 's/^NoNewPrivileges=/NoNewPrivilege=/' "$units/bhtf-follow@.service" >"$units/wrong-word@.service"
  test_that "it would find a word that is none" unverified wrong-word@site.service
  sed 's/bin\/bhtf-mqtt/bin\/bhtf-mqqt/' "$units/bhtf-follow@.service" >"$units/wrong-path@.service"
  test_that "and a program that is not there" unverified wrong-path@site.service
  make -s -C "$root/host/mqtt" OUT="$here/built" DESTDIR="$here/usr" PREFIX=/usr install
  for unit in publish follow; do
    test_that "bhtf-$unit@ of another prefix starts its program" grep -q '^ExecStart=/usr/bin/bhtf-mqtt ' "usr/usr/lib/systemd/system/bhtf-$unit@.service"
  done
  test_that "the user of the units is made" systemd-sysusers --root="$here/root" "$here/root/usr/local/lib/sysusers.d/bhtf-mqtt.conf" 2>/dev/null
  for unit in publish follow; do
    test_that "bhtf-$unit@ runs as that user" grep -q "^$(sed -n 's/^User=//p' "$units/bhtf-$unit@.service"):.*:/var/lib/bhtf:" root/etc/passwd
    test_that "and that group" grep -q "^$(sed -n 's/^Group=//p' "$units/bhtf-$unit@.service"):" root/etc/group
    test_that "its state is where its file is" grep -q '^StateDirectory=bhtf$' "$units/bhtf-$unit@.service"
    test_that "its settings' folder is made" test -d "root$(sed -n 's/^LoadCredential=conf:\(.*\)\/%i.conf$/\1/p' "$units/bhtf-$unit@.service")"
  done

  # -- the commands, as they stand in the units
  chmod a+rx "$work" .
  mkdir state credentials
  as=()
  [ "$(id -u)" -ne 0 ] || as=(setpriv --reuid=65534 --regid=65534 --clear-groups --no-new-privs)
  # unit_command UNIT NAME: the words of its ExecStart
  unit_command() {
    sed -n 's/^ExecStart=//p' "$units/bhtf-$1@.service" |
      sed "s|%i|$2|g; s|\${CREDENTIALS_DIRECTORY}|$here/credentials/$2|; s|/var/lib/bhtf|$here/state|; s|^/usr/local/bin|$here/built|"
  }
  # run_unit UNIT NAME [BEFORE..]: starts it in the background; its notices are in UNIT-told.log
  run_unit() {
    local unit=$1 name=$2 words
    shift 2
    read -ra words <<<"$(unit_command "$unit" "$name")"
    rm -f "$unit.socket"
    background "$unit-told" python3 "$root/tests/stations/told.py" "$here/$unit.socket"
    until_so 20 test -S "$unit.socket"
    background "$unit" env NOTIFY_SOCKET="$here/$unit.socket" "${as[@]}" "$@" "${words[@]}"
  }
  # unit_ends STATUS UNIT NAME: run to its end, it has this status
  unit_ends() {
    local want=$1 words
    read -ra words <<<"$(unit_command "$2" "$3")"
    exits "$want" timeout 60 "${as[@]}" "${words[@]}"
  }
  # what systemd does when the program of a unit has ended with a status, by the unit's words
  restarts() {
    grep -q '^Restart=on-failure$' "$units/bhtf-$1@.service" && [ "$2" -ne 0 ] &&
      ! sed -n 's/^RestartPreventExitStatus=//p' "$units/bhtf-$1@.service" | grep -qw "$2"
  }
  rests() { ! restarts "$@"; }
  # end_traced PID: the program that strace started is told to end; its status
  end_traced() {
    local children
    read -r children _ <"/proc/$1/task/$1/children"
    kill -TERM "$children"
    wait "$1"
  }
  allowed() { python3 "$root/tests/stations/allowed.py" "$@"; }
  refused() { ! allowed "$@" >/dev/null; }
  count=0
  port=$(free_port)
  office
  add
  mv office.bhtf state/site.bhtf
  mkdir credentials/site credentials/copy credentials/wrong
  printf 'host = localhost\nport = %s\nsite = site\nfile = file\nbackoff = 1\n' "$port" >credentials/site/conf
  { cat credentials/site/conf; echo name = a; } >credentials/copy/conf
  echo colour = red >credentials/wrong/conf
  chmod -R go-rwx credentials
  owned() { [ "$(id -u)" -ne 0 ] || chown -R 65534:65534 "$@"; }
  owned state credentials
  mkdir -m 777 traces
  run_unit follow copy strace -f -y -qq -o "$here/traces/follow"
  follower=$pid
  test_that "a station is ready though there is no broker" until_so 20 grep -q '^READY=1$' follow-told.log
  start_broker
  run_unit publish site strace -f -y -qq -o "$here/traces/publish"
  it=$pid
  test_that "an office is ready" until_so 20 grep -q '^READY=1$' publish-told.log
  test_that "the station gets the file" until_so 60 cmp state/site.bhtf state/copy.bhtf
  bhtf add state/site.bhtf more -E 5 -N 5 -H 5 --allow-far --quiet
  test_that "and what is added" until_so 60 cmp state/site.bhtf state/copy.bhtf
  traced=([0]="follow $follower" [1]="publish $it")
  for words in "${traced[@]}"; do
    unit=${words% *}
    end_traced "${words#* }"
    status=$?
    test_that "$unit ends with 0 when it is told to" [ "$status" -eq 0 ]
    test_that "which systemd lets rest" rests "$unit" "$status"
    test_that "and says that it ends" until_so 20 grep -q '^STOPPING=1$' "$unit-told.log"
    test_that "what $unit does is what its unit lets it do" allowed "traces/$unit" "$units/bhtf-$unit@.service" "$here/state"
  done
  test_that "a write elsewhere would be found" refused traces/follow "$units/bhtf-follow@.service" /nowhere
  sed 's/^SystemCallFilter=.*/SystemCallFilter=@basic-io/' "$units/bhtf-follow@.service" >narrow.service
  test_that "and a call that is not in the filter" refused traces/follow narrow.service "$here/state"
  sed 's/^RestrictAddressFamilies=.*/RestrictAddressFamilies=AF_UNIX/' "$units/bhtf-follow@.service" >narrow.service
  test_that "and a family of addresses" refused traces/follow narrow.service "$here/state"
  for unit in follow publish; do
    test_that "wrong settings end $unit with 78" unit_ends 78 "$unit" wrong
    test_that "settings that are not there, too" unit_ends 78 "$unit" nothing
    test_that "and systemd lets it rest" rests "$unit" 78
    test_that "as where it is refused" rests "$unit" 1
    test_that "trouble is tried again" restarts "$unit" 2
  done
  run_unit publish site
  it=$pid
  until_so 60 logged publish 'ready'
  test_that "a second office of the file ends with 1" unit_ends 1 publish site
  bhtf add state/copy.bhtf mine -E 9 -N 9 -H 9 --allow-far --quiet
  bhtf add state/site.bhtf another -E 6 -N 6 -H 6 --allow-far --quiet
  owned state
  test_that "a copy that somebody changed ends a station with 1" unit_ends 1 follow copy
  end_of "$it"
  if [ "$(id -u)" -eq 0 ]; then chown -R 0:0 state; else chmod -R a-w state; fi
  test_that "a folder that cannot be written ends an office with 2" unit_ends 2 publish site
  chmod -R u+w state
  end_broker
  cd "$root" || return
}

# ---- measures ----

# bytes that a station takes: what comes down the line, with MQTT's own
part_measures() {
  local here=$work/measures line a started took squash snapshot least before after i
  mkdir "$here"
  cd "$here" || return
  count=0
  port=$(free_port)
  start_broker
  bhtf create office.bhtf --key-size 16 --slots 4096 --quiet
  { echo name,easting,northing,height,note; for i in $(seq 3000); do echo "N-$i,$((100000 + i * 17)).25,$((200000 + i * 13)).5,4.125,bolt $i"; done; } >many.csv
  bhtf import office.bhtf many.csv --quiet
  background office mqtt publish office.bhtf --file file
  office_pid=$pid
  background line python3 "$root/tests/stations/proxy.py" line.port "$port" line.count
  line=$pid
  until_so 20 test -s line.port
  cp office.bhtf a.bhtf
  background a bhtf-mqtt follow a.bhtf -h 127.0.0.1 -p "$(cat line.port)" --site site --file file --name a
  a=$pid
  until_so 60 logged a 'a.bhtf is'
  read -r before _ <line.count
  started=$(date +%s%N)
  add
  test_that "an added point arrives" until_so 60 equal a
  took=$((($(date +%s%N) - started) / 1000000))
  # what came down: the head, and the acknowledgement of the station's word
  until_so 20 logged a 'a.bhtf is 1/1'
  read -r after _ <line.count
  echo "an added point: $((after - before)) bytes down to a station; command to copy $took ms, with the command's own start"
  test_that "an added point takes at most 320 bytes" [ $((after - before)) -le 320 ]

  # 300 missed
  end_of "$a"
  cp office.bhtf old.bhtf
  for i in $(seq 300); do add; done
  published() { [ "$(mqtt status --file file | sed -nE 's/^office .* sum ([0-9a-f-]*) .*/\1/p')" = "$(bhtf sum office.bhtf | cut -d' ' -f1)" ]; }
  test_that "300 changes are published" until_so 60 published
  read -r before _ <line.count
  test_that "a station that missed 300 changes" bhtf-mqtt follow a.bhtf -h 127.0.0.1 -p "$(cat line.port)" --site site --file file --name a --once -q
  test_that "has the file" equal a
  read -r after _ <line.count
  echo "300 missed changes: $((after - before)) bytes down, $(grep -c 'record of' office.log) records"
  test_that "300 missed changes take at most 15 kB" [ $((after - before)) -le 15000 ]

  # 10,000 missed, in imports of a hundred
  cp office.bhtf old.bhtf
  for i in $(seq 100); do
    awk -v from=$((i * 30)) -v n="$i" 'BEGIN { print "name,easting,northing,height,note"
      for (k = 0; k < 100; k++) printf "N-%d,%d.25,%d.5,%d.%03d,turn %d\n", (from + k) % 3000 + 1, 100000 + ((from + k) % 3000 + 1) * 17, 200000 + ((from + k) % 3000 + 1) * 13, 4, n, n }' >turn.csv
    bhtf import office.bhtf turn.csv --update --quiet
  done
  test_that "10,000 changes are published" until_so 120 published
  read -r before _ <line.count
  test_that "a station that missed 10,000 changes" bhtf-mqtt follow a.bhtf -h 127.0.0.1 -p "$(cat line.port)" --site site --file file --name a --once -q
  test_that "has the file" equal a
  read -r after _ <line.count
  squash=$(bhtf delta old.bhtf office.bhtf | zstd -19 -c | wc -c)
  bhtf-mqtt follow new.bhtf -h 127.0.0.1 -p "$port" --site site --file file --name new --once 2>new.log
  snapshot=$(sed -nE 's/.*snapshot of .*, ([0-9]+) bytes/\1/p' office.log | tail -n 1)
  [ "$squash" -lt "${snapshot:-999999999}" ] && least=$squash || least=$snapshot
  echo "10,000 missed changes: $((after - before)) bytes down; one squash $squash, the newest snapshot ${snapshot:-none}"
  test_that "10,000 missed changes take at most 1.3 of the least" [ $(((after - before) * 10)) -le $((13 * least)) ]
  end_of "$office_pid"
  end_of "$line"

  # 1,000 changes to 20 followers, one process each way
  libraries='-lmosquitto -lzstd -lcrypto' options='-DWITH_ZSTD -DWITH_CRYPTO -DVERSION="x"'
  cd "$root" || return
  test_that "the program of many stations builds" compile host/mqtt "$work/many" tests/stations/many.c host/mqtt/link.c host/mqtt/log.c host/mqtt/disk.c
  unset libraries options
  test_that "1,000 changes to 20 stations, no gap" "$work/many" "$port" 20 1000
  test_that "20 changes to 100 stations, no gap" "$work/many" "$port" 100 20
  end_broker
}

for part in "$@"; do "part_$part"; done
echo "of these $random random"
echo "of these $faults faults"
tally
