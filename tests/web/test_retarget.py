"""Tries what ./pbaudit-web does with the library before it is compiled for WebAssembly: web/retarget on a few lines of
LLVM's text, and web/picked.c beside the instruction for which it stands."""
import platform
import shutil

import pytest

from common import TOP, needs, ran

TARGET, LAYOUT = "wasm64-unknown-unknown", "e-m:e-p:64:64-n32:64"
X86 = """target datalayout = "e-m:e-p270:32:32-i64:64-f80:128-n8:16:32:64-S128"
target triple = "x86_64-unknown-linux-gnu"
define i32 @all(i32 %0) #0 {
  %2 = call <16 x i8> @llvm.x86.ssse3.pshuf.b.128(<16 x i8> %3, <16 x i8> %4)
  %5 = call i32 @llvm.ctpop.i32(i32 %0)
  ret i32 %5
}
declare <16 x i8> @llvm.x86.ssse3.pshuf.b.128(<16 x i8>, <16 x i8>) #1
attributes #0 = { nounwind "probe-stack"="inline-asm" "target-cpu"="x86-64" "stack-probe-size"="4096" }
"""
WASM = f"""target datalayout = "{LAYOUT}"
target triple = "{TARGET}"
define i32 @all(i32 %0) #0 {{
  %2 = call <16 x i8> @picked_bytes(<16 x i8> %3, <16 x i8> %4)
  %5 = call i32 @llvm.ctpop.i32(i32 %0)
  ret i32 %5
}}
declare <16 x i8> @picked_bytes(<16 x i8>, <16 x i8>) #1
attributes #0 = {{ nounwind    }}
"""
OTHERS = ["llvm.x86.ssse3.pshuf.b", "llvm.x86.avx2.pshuf.b", "llvm.x86.sse2.pmovmskb.128"]


def retargeted(room, text):
    file = room / "library.ll"
    file.write_text(text)
    return ran(TOP / "web/retarget", file, TARGET, LAYOUT), file.read_text()


def test_only_what_names_the_processor_changes(room):
    done, text = retargeted(room, X86)
    assert (done.returncode, done.stdout, done.stderr) == (0, "", "")
    assert text == WASM


@pytest.mark.parametrize("other", OTHERS)
def test_other_instructions_are_not_taken(room, other):
    done, _ = retargeted(room, X86 + f"declare i32 @{other}(<16 x i8>) #1\n")
    assert (done.returncode, done.stderr) == (1, f"retarget: nothing stands in for @{other}\n")


def test_all_that_is_not_taken_is_named(room):
    done, _ = retargeted(room, X86 + "".join(f"  call i32 @{other}(<16 x i8> %9)\n" * 2 for other in OTHERS))
    assert done.stderr == f"retarget: nothing stands in for {' '.join(f'@{other}' for other in sorted(OTHERS))}\n"


def test_usage():
    done = ran(TOP / "web/retarget", "one")
    assert done.returncode == 3 and "usage: web/retarget FILE TARGET LAYOUT" in done.stderr


@pytest.fixture
def compared(room):
    """Compares a text of picked.c with the instruction: how that ended."""
    needs("cc")
    if platform.machine() != "x86_64":
        pytest.skip("this processor isn't x86-64")

    def compares(text):
        (room / "picked.c").write_text(text)
        shutil.copy(TOP / "tests/web/picked.c", room / "compare.c")
        made = ran("cc", "-O2", "-Wall", "-Wextra", "-Werror", "-mssse3", f'-DPICKED="{room}/picked.c"',
                   "-o", room / "compare", room / "compare.c")
        assert made.returncode == 0, made.stderr
        return ran(room / "compare").returncode
    return compares


def test_picks_as_the_instruction_does(compared):
    status = compared((TOP / "web/picked.c").read_text())
    if status == 77:
        pytest.skip("this processor has no SSSE3")
    assert status == 0


@pytest.mark.parametrize("right, wrong", [("0x80", "0x40"), ("& 15", "& 7"), ("? 0 :", "? 1 :")])
def test_another_way_to_pick_differs(compared, right, wrong):
    text = (TOP / "web/picked.c").read_text()
    assert text.count(right) == 1
    assert compared(text.replace(right, wrong)) in (1, 77)
