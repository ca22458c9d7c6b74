# Sourced by whatever builds programs over the proved library, after rust/needs.sh. That library is for x86-64 Linux. On such a machine
# for_x86_64 does nothing; on another, as one with an Arm processor, it installs Debian's compilers for x86-64 and an emulator, and sets what
# C, cargo and the system need, so that the same programs are built and run as if they were the machine's own.

# Where cargo puts what it builds in release mode, below its target folder.
release=release

for_x86_64() {
    [ "$(uname -m)" != x86_64 ] || return 0
    local formats=/proc/sys/fs/binfmt_misc
    # Rust's standard library for x86-64 is a package of that architecture, of the same version as the compiler beside it.
    dpkg --print-foreign-architectures | grep -qx amd64 || as_root dpkg --add-architecture amd64
    needs x86_64-linux-gnu-gcc=gcc-x86-64-linux-gnu x86_64-linux-gnu-g++=g++-x86-64-linux-gnu qemu-user-static \
        rustc-web cargo-web rust-web-clippy libstd-rust-web-dev:amd64

    # Programs start others, as tests start the tool, so the system has to know how x86-64 programs run.
    if [ ! -e $formats/qemu-x86_64 ]; then
        [ -e $formats/register ] || as_root mount -t binfmt_misc binfmt_misc $formats
        as_root tee $formats/register </usr/lib/binfmt.d/qemu-x86_64.conf >/dev/null
    fi

    # These cargo and rustc come first, before others that the machine may have.
    PATH=/usr/bin:$PATH
    cc() { x86_64-linux-gnu-gcc "$@"; }
    c++() { x86_64-linux-gnu-g++ "$@"; }
    ar() { x86_64-linux-gnu-ar "$@"; }
    nm() { x86_64-linux-gnu-nm "$@"; }
    export CARGO_BUILD_TARGET=x86_64-unknown-linux-gnu CARGO_TARGET_X86_64_UNKNOWN_LINUX_GNU_LINKER=x86_64-linux-gnu-gcc
    release=$CARGO_BUILD_TARGET/release
}
