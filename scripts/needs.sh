#!/bin/sh
# Looks for programs before anything long begins. What is missing is installed, where this is root on Debian; else the one line that does it is printed.
#
#     scripts/needs.sh rt python3 cc
packages=
for program; do
    command -v "$program" >/dev/null 2>&1 && continue
    case $program in
    rt | */rt)
        echo "$program is not there: README.md, 'The Rattle kit', says where the kit comes from; put its bin on your path" >&2
        exit 2 ;;
    cc | gcc) packages="$packages gcc libc6-dev" ;;
    c++ | g++) packages="$packages g++" ;;
    nm | ar) packages="$packages binutils" ;;
    icebox_explain | icebox_vlog | iceunpack) packages="$packages fpga-icestorm" ;;
    */*)
        echo "$program is not there" >&2
        exit 2 ;;
    *) packages="$packages $program" ;;
    esac
done
if [ -z "$packages" ]; then exit 0; fi
if [ "$(id -u)" = 0 ] && command -v apt-get >/dev/null 2>&1; then
    echo "installing, once:$packages" >&2
    apt-get update -qq >/dev/null && DEBIAN_FRONTEND=noninteractive apt-get install -y -qq --no-install-recommends $packages >/dev/null && exit 0
fi
echo "missing; this installs it on Debian:" >&2
echo "    sudo apt-get install -y$packages" >&2
exit 2
