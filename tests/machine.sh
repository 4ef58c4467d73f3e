# What the machine needs to compile and run programs with the library, which is x86-64 code; to be sourced before anything is compiled. On x86-64 nothing is
# done. On another processor gcc and the like become those that make x86-64 programs, and these run under an emulator; what is missing for that is installed.
# It is done once for all that is started afterwards, and fails where it cannot be done.
# Then `emulated` is yes, and else empty. An emulator is slow: tests divide the number of random inputs by `share`, which is 1 on x86-64.

# Runs a command with the compilers of the machine itself.
own() { env "PATH=${own_path:-$PATH}" "$@"; }

# Whether valgrind is here and can watch the programs.
can_watch() { [ -z "$emulated" ] && command -v valgrind >/dev/null; }

# Whether programs for x86-64 can be compiled and run. Their loader is one.
can_emulate() { command -v x86_64-linux-gnu-g++ >/dev/null && /usr/x86_64-linux-gnu/lib64/ld-linux-x86-64.so.2 --version >/dev/null 2>&1; }

# Installs the compilers and the emulator, and has the system run x86-64 programs by it, each where it is not so. Two do not do so at once. $1 is this folder.
emulate() {
    local formats=/proc/sys/fs/binfmt_misc emulator=qemu-x86_64-static zeros='\x00\x00\x00\x00\x00\x00\x00\x00\x00' ones='\xff\xff\xff\xff\xff\xff\xff\xff'
    flock 9
    can_emulate && return
    command -v x86_64-linux-gnu-g++ && command -v $emulator || bash "$1/install.sh" g++-x86-64-linux-gnu qemu-user-static
    [ -e $formats/register ] || mount -t binfmt_misc binfmt_misc $formats
    # Such a program is known by its first 20 bytes, of which these bits count. F: the emulator is opened now, so that every program and user has it.
    emulator=$(command -v $emulator) && ! can_emulate &&
        printf '%s' ":x86-64:M::\x7fELF\x02\x01\x01$zeros\x02\x00\x3e\x00:\xff\xff\xff\xff\xff\xfe\xfe\xfc$ones\xfe\xff\xff\xff:$emulator:F" >$formats/register
    can_emulate
} 9</ >/dev/null 2>&1

if [ "$(uname -m)" = x86_64 ]; then
    emulated='' share=1
elif [ -z "${emulated:-}" ]; then
    tests=$(cd "$(dirname "${BASH_SOURCE[0]}")" && pwd)
    emulate "$tests" || { echo "machine: programs for x86-64 cannot be compiled and run here, on $(uname -m)"; return 1; }
    links=${tests%/*}/target/x86-64
    mkdir -p "$links" || return 1
    for name in gcc g++ ar nm objcopy objdump ranlib readelf strip; do
        ln -sfn "$(command -v x86_64-linux-gnu-$name)" "$links/$name" || return 1
    done
    ln -sfn gcc "$links/cc" && ln -sfn g++ "$links/c++" || return 1
    export emulated=yes share=10 own_path=$PATH PATH=$links:$PATH QEMU_LD_PREFIX=/usr/x86_64-linux-gnu
    echo "machine: x86-64 programs run under an emulator here, on $(uname -m): of what is random a sample, and valgrind does not watch their memory"
fi
