#!/bin/sh
# build.sh DIR: fetch Debian's source of pMARS into DIR and build DIR/pmars, without a display. Changes nothing outside DIR.
set -e
mkdir -p "$1/lists/partial" "$1/cache/archives/partial"
cd "$1"
suite=$(. /etc/os-release && echo "$VERSION_CODENAME")
echo "deb-src [signed-by=/usr/share/keyrings/debian-archive-keyring.gpg] http://deb.debian.org/debian $suite main" > sources.list
apt="apt-get -q -o Dir::Etc::sourcelist=$PWD/sources.list -o Dir::Etc::sourceparts=- -o Dir::State::lists=$PWD/lists -o Dir::Cache=$PWD/cache"
$apt update
$apt --download-only source pmars
rm -rf source
dpkg-source -x pmars_*.dsc source
cd source/src
gcc -O2 -std=gnu89 -fcommon -w -DEXT94 -DPERMUTATE -o ../../pmars \
    pmars.c asm.c eval.c disasm.c cdb.c sim.c pos.c clparse.c global.c token.c str_eng.c
