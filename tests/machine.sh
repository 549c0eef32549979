# What ./test and the scripts of bench/ share, which have made the folder $work: `need` installs what a fresh machine lacks; $cc
# compiles C for x86-64, as compiled programs are, and $run runs what it made, by an emulator where the machine is another.

need() { # COMMAND PACKAGE
    command -v "$1" >/dev/null && return
    local root=''
    [ "$(id -u)" = 0 ] || root=sudo
    { $root apt-get update && DEBIAN_FRONTEND=noninteractive $root apt-get install -y "$2"; } >"$work/apt" 2>&1 || cat "$work/apt"
}

need python3 python3
need gcc gcc
need g++ g++
cc=gcc
run=
if [ "$(uname -m)" != x86_64 ]; then
    need x86_64-linux-gnu-gcc gcc-x86-64-linux-gnu
    need qemu-x86_64 qemu-user
    cc=x86_64-linux-gnu-gcc
    # the C library's functions for the plainest processor are the ones that the emulator runs fastest
    run='qemu-x86_64 -cpu qemu64 -L /usr/x86_64-linux-gnu'
fi
