# How x86-64 code is run, made and read on this machine: the program, the archive and what the tests link with it are such code. An x86-64
# machine does it with its own tools. On another the Rattle kit's emulator runs it, as under rt, and tools of Debian's make and read it for the
# tests, which install them where they are missing. Whoever sources this has functions note and give_up.
machine=$(uname -m)

# Whether this machine runs x86-64 code itself.
is_x86_64() { [ "$machine" = x86_64 ]; }

# needs_x86_64 WHY: ends on another machine.
needs_x86_64() { is_x86_64 || give_up "$1, and this machine is $machine: nothing was done"; }

# The folder of the Rattle kit: that of rt, or the one that rt is told to take.
kit_folder() { printf '%s' "${RATTLE_HOME:-$(dirname "$(dirname "$(readlink -f "$(command -v rt)")")")}"; }

# Sets runner, the words before a program's name where it is run: none on an x86-64 machine, else the kit's emulator, loader and libraries.
find_runner() {
  local tools
  runner=()
  if is_x86_64; then return; fi
  tools=$(kit_folder)/on/$machine/toolchain
  runner=("$tools/bin/qemu-x86_64" "$tools/lib/ld-linux-x86-64.so.2" --library-path "$tools/lib")
  [ -x "${runner[0]}" ] || give_up "the program is for x86-64, and the Rattle kit in $(kit_folder) has no emulator for this machine, $machine"
}

# Sets what makes and reads x86-64 code: c_compiler, rust_compiler with its first words, disassembler, symbol_lister; and runner. Where some of
# it is missing it is installed.
find_tools() {
  local missing
  find_runner
  if is_x86_64; then
    c_compiler=gcc rust_compiler=(rustc) disassembler=objdump symbol_lister=nm
    return
  fi
  missing=$(missing_packages)
  # shellcheck disable=SC2086
  [ -z "$missing" ] || need_packages $missing
  c_compiler=x86_64-linux-gnu-gcc disassembler=x86_64-linux-gnu-objdump symbol_lister=x86_64-linux-gnu-nm
  rust_compiler=("$(rust_for_x86_64)" --target x86_64-unknown-linux-gnu -C linker="$c_compiler")
}

# Debian's packages of the tools for x86-64 code that are missing here. The C compiler's brings what reads such code too.
missing_packages() {
  [ -e "$(x86_64-linux-gnu-gcc -print-file-name=crt1.o 2>/dev/null)" ] || echo gcc-x86-64-linux-gnu libc6-dev-amd64-cross
  [ -n "$(rust_for_x86_64)" ] || echo rustc libstd-rust-dev:amd64
}

# The Rust compiler that has the library for x86-64, the one on the PATH or else Debian's; nothing where neither has it.
rust_for_x86_64() {
  local compiler
  for compiler in rustc /usr/bin/rustc; do
    if [ -d "$("$compiler" --print target-libdir --target x86_64-unknown-linux-gnu 2>/dev/null)" ]; then
      printf '%s' "$compiler"
      return
    fi
  done
}

# need_packages PACKAGE..: installs Debian's packages, or ends with how to do it.
need_packages() {
  local said by_hand="dpkg --add-architecture amd64 && apt-get update && apt-get install $*"
  [ "$(id -u)" = 0 ] || give_up "tools for x86-64 code are missing on this machine, $machine: run as root '$by_hand'"
  note "installing tools for x86-64 code on this machine, $machine: $*"
  said=$(install_packages "$@" </dev/null 2>&1) && return
  tail -n 12 <<<"$said" >&2
  give_up "they could not be installed: run '$by_hand' to see why"
}

# install_packages PACKAGE..: installs them and what they need, and removes nothing.
install_packages() {
  dpkg --add-architecture amd64 && apt-get -qq -o Acquire::Retries=3 update &&
    DEBIAN_FRONTEND=noninteractive apt-get -qq -y -o Acquire::Retries=3 --no-install-recommends --no-remove install "$@"
}
