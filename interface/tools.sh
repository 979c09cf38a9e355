# Read in by .ci/run, test-after-proofs and run-tests: which tools of the tests are here. A tool is here when it works: each is
# tried on a small file. For each that is not, a line says what is left out and which Debian package has it.
#
#   look_for_python               adds python to $TOOLS_HERE
#   look_for_test_tools [proved]  adds cc, sanitizers, valgrind, rust, rustdoc and cargo; `proved`: the compiler has to be one for
#                                 x86-64 Linux, for which the proved archive is made
#   has TOOL                      asks
#
# Where $TOOLS_HERE is set it holds: the gate looks once, before it proves, and a tool that fails later fails its test.
# $CC is the C compiler, by default cc; it links the programs in Rust too.

CC=${CC:-cc}
# where rustup puts the Rust compiler, if the path does not name it
command -v rustc >/dev/null || PATH=$PATH:${HOME:-/root}/.cargo/bin

has() {
    case " $TOOLS_HERE " in
    *" $1 "*) return 0 ;;
    *) return 1 ;;
    esac
}

# find_tool TOOL COMMAND..: adds the tool if the command succeeds
find_tool() {
    tool=$1
    shift
    if "$@" >/dev/null 2>&1; then TOOLS_HERE="${TOOLS_HERE-} $tool"; else return 1; fi
}

# left_out TESTS WANT PACKAGE
left_out() {
    echo "left out: $1 (no $2: Debian $3)"
}

# c_linker FILE: $CC, which may be several words, as the one file that Rust's compiler takes for its linker
c_linker() {
    printf '#!/bin/sh\nexec %s "$@"\n' "$CC" >"$1"
    chmod +x "$1"
}

try_cc() { $CC "$@" "$probe/probe.c" -o "$probe/c" && "$probe/c"; }
try_sanitizers() { $CC -fsanitize=address,undefined "$probe/probe.c" -o "$probe/sanitized" && "$probe/sanitized"; }
try_rust() { rustc --edition 2021 -C linker="$probe/linker" "$probe/probe.rs" -o "$probe/rust" && "$probe/rust"; }

look_for_python() {
    TOOLS_HERE=${TOOLS_HERE-}
    find_tool python python3 -c '' ||
        left_out "tools/believed.py --check and tools/layers.py --check: what is believed, and the layers" "python3" "package python3"
}

look_for_test_tools() {
    TOOLS_HERE=${TOOLS_HERE-}
    probe=$(mktemp -d) || exit 2
    cat >"$probe/probe.c" <<'END'
#include <stdint.h>
#include <stdio.h>
#if defined PROVED && !(defined __x86_64__ && defined __linux__)
#error "the proved archive is for x86-64 Linux"
#endif
int main(void)
{
    return 0;
}
END
    cat >"$probe/probe.rs" <<'END'
#[derive(Debug)]
struct Refused;
impl core::fmt::Display for Refused {
    fn fmt(&self, _: &mut core::fmt::Formatter<'_>) -> core::fmt::Result {
        Ok(())
    }
}
impl core::error::Error for Refused {}
fn main() {
    let _: &dyn core::error::Error = &Refused;
}
END
    c_linker "$probe/linker"
    if find_tool cc try_cc ${1:+-DPROVED}; then
        find_tool valgrind valgrind -q --error-exitcode=1 "$probe/c" ||
            left_out "the tests in C under valgrind" "valgrind" "package valgrind"
        find_tool sanitizers try_sanitizers ||
            left_out "the tests in C with sanitizers" "sanitizers in $CC" "package gcc has them, libclang-rt-dev for clang"
        if find_tool rust try_rust; then
            find_tool rustdoc rustdoc --version ||
                left_out "the examples in the Rust documentation" "rustdoc" "package rustc"
            find_tool cargo cargo --version ||
                left_out "the Rust wrapper as a dependency, examples/controller" "cargo" "package cargo"
        else
            left_out "the tests in Rust" "rustc with core::error, 1.81 or newer" "package rustc from Debian 13 on, or rustup"
        fi
    else
        left_out "the tests of the interface in C and in Rust" "C compiler${1:+ for x86-64 Linux}, CC=$CC" "packages gcc and libc6-dev"
    fi
    rm -rf "$probe"
}
