#!/usr/bin/env bash
# The Debian packages and the source tarball of the commit that is checked out: made, looked into and used; and the library for ARM.
#   tests/packages.sh            for this machine, with its own tools: about two minutes; tests/arm64.sh is run with it
#   tests/packages.sh --clean    for amd64 and arm64 as packaging/build makes them, in a new Debian system; installed in another one, and
#                                used there; those for ARM are used under an emulator. About four minutes, and needs a mirror of Debian
#   tests/packages.sh --twice    made twice, in two new systems, and compared byte for byte: about six minutes
#   PROVED=folder                what packaging/proved made of this commit, in place of making it
# The last line is 'N passed, M failed'.
set -u
what=short
case ${1:-} in
'') ;;
--clean | --twice) what=${1#--} ;;
*) sed -n '3,7s/^# \{0,1\}//p' "$0" >&2; exit 2 ;;
esac
export LC_ALL=C.UTF-8
[ -z "${PROVED:-}" ] || PROVED=$(realpath "$PROVED")
cd "$(dirname "$0")/.." || exit 2
needs=(build-essential debhelper dh-python fakeroot gcc-aarch64-linux-gnu git libc6-dev-arm64-cross libexpat1-dev lintian pkgconf python3
  qemu-user-static xz-utils)
[ $what = short ] || needs+=(mmdebstrap)
.ci/install "${needs[@]}" || exit 2
. tests/tally.sh
work=$(mktemp -d)
trap 'rm -rf "$work"' EXIT
chmod 755 "$work" # a system that mmdebstrap makes may be another user's

# quietly COMMAND..: says what it said only where it fails
quietly() {
  "$@" >"$work/said" 2>&1 && return
  tail -n 20 "$work/said"
  return 1
}
refuses() { ! "$@" >"$work/said" 2>&1; }

version=$(sed -n 's/^VERSION = //p' host/Makefile)
if [ -z "${PROVED:-}" ]; then
  test_that "the library is proved, and compiled for both machines" quietly packaging/proved "$work/proved"
  [ "$failed" -eq 0 ] || { tally; exit 1; }
  export PROVED=$work/proved
fi

# ---- what all three have ----

# one FOLDER PATTERN: the one file of that name
one() {
  local found=("$1"/$2)
  [ "${#found[@]}" -eq 1 ] && [ -s "${found[0]}" ] && echo "${found[0]}"
}

# has_all FOLDER ARCHITECTURE: the four packages
has_all() {
  local name
  for name in bhtf_*_"$2" libbhtf1_*_"$2" libbhtf-dev_*_"$2" python3-bhtf_*_all; do
    one "$1" "$name.deb" >"$work/found" || { echo "$name.deb is not there once"; return 1; }
  done
}

# unpack FOLDER ARCHITECTURE INTO
unpack() {
  local name
  mkdir -p "$3"
  for name in bhtf_*_"$2" libbhtf1_*_"$2" libbhtf-dev_*_"$2" python3-bhtf_*_all; do dpkg-deb -x "$(one "$1" "$name.deb")" "$3" || return 1; done
}

# code_inside PROVED ARCHIVE: each function of the proved archive stands in the other with the same bytes. Each has a section of its own.
code() { readelf -x "$2" "$1" 2>/dev/null | grep '^  0x'; }
code_inside() {
  local section n=0
  while read -r section; do
    n=$((n + 1))
    diff <(code "$1" "$section") <(code "$2" "$section") >"$work/said" || { echo "$section of $2 is another"; return 1; }
  done < <(readelf -SW "$1" | grep -oE '\.text\.[^ ]+')
  [ "$n" -ge 23 ] || { echo "$1 has $n functions"; return 1; }
}

# exported LIBRARY; declared: names of calls
exported() { nm -D --defined-only "$1" | awk '{ print $3 }' | sort; }
declared() { grep -ohE '\bbhtf_[a-z0-9_]+\(' host/include/*.h | tr -d '(' | sort -u; }
listed() { sed -n 's/^ \(.*\)@Base.*/\1/p' packaging/debian/libbhtf1.symbols | sort; }

# same_calls LIBRARY: what it exports is declared, and is in the list of symbols, and the other way round
same_calls() {
  exported "$1" >"$work/exported"
  [ -s "$work/exported" ] || return 1
  diff "$work/exported" <(listed) >"$work/said" ||
    { echo "exported, and not in packaging/debian/libbhtf1.symbols (<), which packaging/symbols adds, or the other way round (>):"; cat "$work/said"; return 1; }
  comm -23 "$work/exported" <(declared) | grep . && return 1
  return 0
}

# looked_into FOLDER ARCHITECTURE MACHINE: what is in the packages
looked_into() {
  local x=$work/x-$2
  test_that "$2: the four packages are there" has_all "$1" "$2"
  test_that "$2: they can be unpacked" unpack "$1" "$2" "$x"
  test_that "$2: what was proved is there as it is" cmp "$(echo "$x"/usr/lib/*/bhtf/libstation.a)" "$PROVED/$3/libstation.a"
  test_that "$2: and its code in the archive that programs are linked with" code_inside "$PROVED/$3/libstation.a" "$(echo "$x"/usr/lib/*-gnu/libbhtf.a)"
  test_that "$2: calls exported, declared and listed are the same" same_calls "$(echo "$x"/usr/lib/*/libbhtf.so.1)"
  test_that "$2: the commit is told" cmp "$x/usr/share/doc/bhtf/COMMIT" <(git log -1 --format=%H)
  test_that "$2: the kit is told" cmp "$x/usr/share/doc/bhtf/KIT-ID" "$PROVED/KIT-ID"
  test_that "$2: sums of all files" quietly sha256sum --quiet --check --strict <(cd "$1" && sed "s|  |  $1/|" SHA256SUMS)
}

# ---- short ----

short() {
  local x=$work/x-amd64 here
  here=$(dpkg --print-architecture)
  [ "$here" = amd64 ] || { echo "the short run is for amd64"; exit 2; }

  test_that "sums of what was proved" quietly sh -c "cd '$PROVED' && sha256sum --quiet --check --strict SHA256SUMS"
  test_that "packages for this machine, without a word of lintian's" quietly packaging/build --here --out "$work/out"
  [ "$failed" -eq 0 ] || return
  looked_into "$work/out" amd64 x86_64

  ln -s "$(command -v python3)" "$x/usr/bin/python3"
  export RUN="env LD_LIBRARY_PATH=$(echo "$x"/usr/lib/*-gnu) PYTHONPATH=$x/usr/lib/python3/dist-packages"
  test_that "command and module, used where they were unpacked" quietly env PREFIX="$x/usr" packaging/debian/tests/use command python
  unset RUN
  test_that "zsh's completion is where Debian's zsh looks" [ -s "$x/usr/share/zsh/vendor-completions/_bhtf" ]
  test_that "nothing of the module is left beside Debian's place for it" [ ! -e "$x/usr/share/bhtf" ]

  # the tarball
  local tarball=$work/out/bhtf-$version.tar.xz
  test_that "Debian's source is the tarball" cmp "$tarball" "$work/out/bhtf_$version.orig.tar.xz"
  test_that "a second tarball is made" quietly packaging/source "$work/second"
  test_that "and has the same bytes" cmp "$tarball" "$work/second/bhtf-$version.tar.xz"
  tar -xf "$tarball" -C "$work"
  local tree=$work/bhtf-$version
  test_that "without a prover, the tarball installs" \
    quietly env -i PATH=/usr/bin:/bin make -s -C "$tree/host" install PREFIX="$work/usr"
  says_proved() {
    "$1" --version | sed -n 1p | grep -qxE "bhtf $version, file format [0-9.]+ and [0-9.]+" &&
      [ "$("$1" --version | sed -n 2p)" = "proved by $(cat "$PROVED/KIT-ID")" ]
  }
  test_that "its command says by which kit it was proved" says_proved "$work/usr/bin/bhtf"
  test_that "so does the package's" says_proved "$x/usr/bin/bhtf"
  arm_library() {
    env -i PATH=/usr/bin:/bin make -s -C "$tree/host" OUT="$work/arm" CC=aarch64-linux-gnu-gcc CFLAGS=-O0 "$work/arm/libbhtf.so.1" &&
      readelf -h "$work/arm/libbhtf.so.1" | grep -q AArch64
  }
  test_that "a cross compiler finds the archive for ARM" quietly arm_library

  # one version in all places
  test_that "the changelog has the version of the Makefile" grep -q "^bhtf ($version-1) " <(head -n 1 packaging/debian/changelog)
  local page
  for page in host/man/*.[13]; do test_that "so has $page" grep -q "^\.TH .*\"bhtf $version\"" "$page"; done

  # the tests' own tests: things that are wrong are told
  sed '/^ bhtf_add@/d' packaging/debian/libbhtf1.symbols >"$work/symbols"
  symbols() { dpkg-gensymbols -c4 -q -plibbhtf1 -v"$version" -e"$(echo "$x"/usr/lib/*/libbhtf.so.1)" -I"$1" -O/dev/null -P"$work/none"; }
  mkdir -p "$work/none/debian" && printf 'Source: bhtf\n\nPackage: libbhtf1\nArchitecture: any\n' >"$work/none/debian/control"
  in_tree() { (cd "$tree" && cp -r packaging/debian . && "$@"); }
  test_that "the list of symbols is taken" quietly in_tree symbols "$PWD/packaging/debian/libbhtf1.symbols"
  test_that "a list without one call is refused" refuses in_tree symbols "$work/symbols"
  test_that "other code in the archive is told" refuses code_inside "$PROVED/x86_64/libstation.a" "$PROVED/aarch64/libstation.a"
  cp -r "$PROVED" "$work/touched"
  printf x >>"$work/touched/aarch64/libstation.a"
  test_that "an archive that was changed is refused" refuses env PROVED="$work/touched" packaging/source "$work/refused"
  cp -r "$PROVED" "$work/other"
  printf '%040d\n' 0 >"$work/other/COMMIT"
  test_that "what was proved of another commit is refused" refuses env PROVED="$work/other" packaging/source "$work/refused"
  test_that "neither left a tarball" [ -z "$(ls "$work/refused")" ]
  quietly make -s -C host STANDIN=yes CFLAGS=-O0 OUT="$work/standin" "$work/standin/command/version.o"
  test_that "plain C in the library's place is not called proved" grep -q 'not proved: another library' <(strings "$work/standin/command/version.o")
  echo "of these 6 faults"

  # the library's tests on ARM
  echo "== 64-bit ARM"
  tests/arm64.sh >"$work/arm64.out" 2>&1
  local status=$? last
  head -n -1 "$work/arm64.out"
  last=$(tail -n 1 "$work/arm64.out")
  case $last in
  *' passed, '*' failed')
    passed=$((passed + ${last%% *}))
    last=${last##*, }
    failed=$((failed + ${last%% *}))
    ;;
  *) failed=$((failed + 1)); echo "FAILED: tests/arm64.sh ended early: $last" ;;
  esac
  [ "$status" -eq 0 ] || [ "$failed" -gt 0 ] || failed=1
}

# ---- in new systems ----

# installed FOLDER: the packages for amd64, installed by apt in a new system and used in it
installed() {
  local packages
  packages=$(echo "$1"/*_amd64.deb "$1"/*_all.deb)
  mmdebstrap --quiet --variant=apt --include=gcc,libc6-dev,pkgconf --customize-hook='mkdir "$1/packages"' \
    --customize-hook="copy-in $packages $PWD/packaging/debian/tests/use /packages" \
    --customize-hook='chroot "$1" sh -c "apt-get install -y -q --no-install-recommends /packages/*.deb"' \
    --customize-hook='chroot "$1" /packages/use' \
    --customize-hook='chroot "$1" apt-get purge -y -q bhtf libbhtf1 libbhtf-dev python3-bhtf' \
    --customize-hook='! chroot "$1" sh -c "find /usr -name \"*bhtf*\" | grep ."' \
    "${SUITE:-bookworm}" /dev/null ${MIRROR:+"$MIRROR"}
}

# on_arm FOLDER: those for ARM, unpacked over what they need of Debian, under the emulator
on_arm() {
  local system=$work/arm-system name
  mmdebstrap --quiet --variant=extract --architectures=arm64 --include=libexpat1,python3 "${SUITE:-bookworm}" "$system" ${MIRROR:+"$MIRROR"} &&
    unpack "$1" arm64 "$system" &&
    env PREFIX="$system/usr" RUN="qemu-aarch64-static -L $system" packaging/debian/tests/use command python
}

in_new_systems() {
  test_that "packages for amd64 and arm64, without a word of lintian's" quietly packaging/build --out "$work/out"
  [ "$failed" -eq 0 ] || return
  looked_into "$work/out" amd64 x86_64
  looked_into "$work/out" arm64 aarch64
  test_that "amd64: installed, used and taken away in a new system" quietly installed "$work/out"
  test_that "arm64: command and module used under the emulator" quietly on_arm "$work/out"
}

twice() {
  local file
  test_that "made once" quietly packaging/build --out "$work/out"
  test_that "made again" quietly packaging/build --no-lintian --out "$work/again"
  [ "$failed" -eq 0 ] || return
  test_that "the same files" diff <(cd "$work/out" && ls) <(cd "$work/again" && ls)
  for file in "$work"/out/*; do
    case $file in *.log | *.buildinfo | *.changes) continue ;; esac # they tell of one build, and of its day
    test_that "${file##*/} has the same bytes" cmp "$file" "$work/again/${file##*/}"
  done
}

case $what in
short) short ;;
clean) in_new_systems ;;
twice) twice ;;
esac
tally
