# What the scripts here share, which have made the folder $work: `built` compiles a program of C for x86-64, `ran` prints how many
# instructions it executes. The plugin of qemu counts them one by one, so a count is the same on every machine.
. tests/machine.sh
need qemu-x86_64 qemu-user
gcc -O2 -Wall -Wextra -shared -fPIC -o "$work/insns.so" bench/insns.c
built() { $cc -static "$@"; }
ran() { qemu-x86_64 -plugin "$work/insns.so" "$@" 2>&1 >/dev/null | sed -n 's/^instructions //p'; }
