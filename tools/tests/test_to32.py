# SPDX-License-Identifier: Apache-2.0
"""ports/to32.py: each form of line that it rewrites, each that it leaves as it is, and each that it refuses."""

from __future__ import annotations

import subprocess
import sys
import tempfile
import unittest
from pathlib import Path

TOP = Path(__file__).resolve().parents[2]
sys.path.insert(0, str(TOP / "ports"))
sys.dont_write_bytecode = True

from to32 import Processor, Unknown, rewritten  # noqa: E402  (it is in ports/)

GIVEN = "e-m:e-p270:32:32-p271:32:32-p272:64:64-i64:64-i128:128-f80:128-n8:16:32:64-S128"
SMALL = Processor("thumbv7em-none-unknown-eabihf", "e-m:e-p:32:32-Fi8-i64:64-v128:64:128-a:0:32-n32-S64", "cortex-m4")
WIDE = Processor("riscv64-unknown-elf", "e-m:e-p:64:64-i64:64-i128:128-n32:64-S128", "generic-rv64", "+m,+a", True)

# Lines of functions, and what they become for addresses of 32 bits.
REWRITTEN = {
    "  %a = alloca ptr, align 8": ["  %a = alloca i64, align 8"],
    "  %a = load ptr, ptr %p, align 8": ["  %to32.1 = load i64, ptr %p, align 8", "  %a = inttoptr i64 %to32.1 to ptr"],
    # what is said of the pointer can't be said of the number; the rest stays
    "  %a = load ptr, ptr %p, align 8, !nonnull !3, !align !4, !noundef !3": ["  %to32.1 = load i64, ptr %p, align 8, !noundef !3", "  %a = inttoptr i64 %to32.1 to ptr"],
    "  %a = load ptr, ptr getelementptr (i8, ptr @g, i64 8), align 8": ["  %to32.1 = load i64, ptr getelementptr (i8, ptr @g, i64 8), align 8", "  %a = inttoptr i64 %to32.1 to ptr"],
    "  %a = load { ptr, i64 }, ptr %p, align 8": [
        "  %to32.1 = getelementptr i8, ptr %p, i32 0",
        "  %to32.4 = load i64, ptr %to32.1, align 8",
        "  %to32.2 = inttoptr i64 %to32.4 to ptr",
        "  %to32.3 = insertvalue { ptr, i64 } poison, ptr %to32.2, 0",
        "  %to32.5 = getelementptr i8, ptr %p, i32 8",
        "  %to32.6 = load i64, ptr %to32.5, align 8",
        "  %a = insertvalue { ptr, i64 } %to32.3, i64 %to32.6, 1",
    ],
    "  store ptr %v, ptr %p, align 8": ["  %to32.1 = ptrtoint ptr %v to i64", "  store i64 %to32.1, ptr %p, align 8"],
    "  store ptr @g, ptr %p, align 8, !noalias !7": ["  %to32.1 = ptrtoint ptr @g to i64", "  store i64 %to32.1, ptr %p, align 8, !noalias !7"],
    # each member has its place on x86-64, and what that place has of the whole's alignment
    "  store { i8, ptr } %v, ptr %p, align 16": [
        "  %to32.1 = getelementptr i8, ptr %p, i32 0",
        "  %to32.2 = extractvalue { i8, ptr } %v, 0",
        "  store i8 %to32.2, ptr %to32.1, align 16",
        "  %to32.3 = getelementptr i8, ptr %p, i32 8",
        "  %to32.4 = extractvalue { i8, ptr } %v, 1",
        "  %to32.5 = ptrtoint ptr %to32.4 to i64",
        "  store i64 %to32.5, ptr %to32.3, align 8",
    ],
    "  %a = ptrtoaddr ptr %p to i64": ["  %to32.1 = ptrtoaddr ptr %p to i32", "  %a = zext i32 %to32.1 to i64"],
    "  call void @llvm.memcpy.p0.p0.i64(ptr align 8 %a, ptr align 8 %b, i64 24, i1 false)": ["  call void @llvm.memcpy.p0.p0.i32(ptr align 8 %a, ptr align 8 %b, i32 24, i1 false)"],
    "  call void @llvm.memset.p0.i64(ptr align 2 %a, i8 0, i64 %n, i1 false), !noalias !2": [
        "  %to32.1 = trunc i64 %n to i32",
        "  call void @llvm.memset.p0.i32(ptr align 2 %a, i8 0, i32 %to32.1, i1 false), !noalias !2",
    ],
    "  call void @llvm.memmove.p0.p0.i64(ptr %a, ptr %b, i64 %n, i1 false) #4": ["  %to32.1 = trunc i64 %n to i32", "  call void @llvm.memmove.p0.p0.i32(ptr %a, ptr %b, i32 %to32.1, i1 false) #4"],
    "  %a = call { i64, i64 } @rattle_alloc(i64 %n, i64 8)": [
        "  %to32.1 = alloca [16 x i8], align 8",
        "  call void @rokdaum_rattle_alloc(ptr %to32.1, i64 %n, i64 8)",
        "  %to32.2 = load i64, ptr %to32.1, align 8",
        "  %to32.4 = getelementptr i8, ptr %to32.1, i32 8",
        "  %to32.3 = load i64, ptr %to32.4, align 8",
        "  %to32.5 = insertvalue { i64, i64 } poison, i64 %to32.2, 0",
        "  %a = insertvalue { i64, i64 } %to32.5, i64 %to32.3, 1",
    ],
}

# Lines of functions in which no width of an address is.
KEPT = (
    "  %a = add nuw i64 %b, 8",
    "  %a = icmp ult ptr %p, %q",
    "  %a = select i1 %c, ptr %p, ptr @g",
    "  %a = phi ptr [ %p, %one ], [ null, %two ]",
    "  %a = extractvalue { ptr, i64 } %b, 0",
    "  %a = insertvalue { ptr, i64 } poison, ptr %p, 0",
    "  %a = ptrtoint ptr %p to i64",
    "  %a = inttoptr i64 %n to ptr",
    "  %a = bitcast <4 x i1> %b to i4",
    "  %a = alloca [72 x i8], align 8",
    "  %a = load <8 x i16>, ptr %p, align 2",
    "  %a = load { i64, i64 }, ptr %p, align 8",
    "  %a = load [2 x i64], ptr %p, align 8",
    "  store <8 x i16> %v, ptr %p, align 2",
    "  store i64 -1, ptr getelementptr inbounds (i8, ptr @g, i64 16), align 8",
    "  %a = getelementptr inbounds nuw i8, ptr %p, i64 %n",
    "  %a = getelementptr i16, ptr %p, i64 1",
    "  %a = call { ptr, i64 } @inside(ptr align 8 %p, i64 %n)",
    "  call void @llvm.lifetime.start.p0(ptr %p)",
    "  %a = call i16 @llvm.sadd.sat.i16(i16 %b, i16 %c)",
    "  switch i64 %a, label %other [",
    "    i64 1, label %one",
    "  ]",
    "  br i1 %c, label %one, label %two, !prof !4",
    "  ret { ptr, i64 } %a",
    "  unreachable",
)

# Lines of functions that it doesn't know, each with the reason that it gives.
REFUSED = {
    "  %a = alloca { ptr, i64 }, align 8": "an alloca that isn't known",
    "  %a = alloca i8, i64 %n, align 1": "an alloca that isn't known",
    "  %a = load atomic ptr, ptr %p acquire, align 8": "a load that isn't known",
    "  %a = load volatile i32, ptr %p, align 4": "a load that isn't known",
    "  %a = load <2 x ptr>, ptr %p, align 16": "a type with pointers that isn't known",
    "  %a = load [2 x ptr], ptr %p, align 8": "a type with pointers that isn't known",
    "  %a = load { ptr, [2 x i8] }, ptr %p, align 8": "a type with pointers that isn't known",
    "  %a = load %struct, ptr %p, align 8": "a load that isn't known",
    "  store volatile ptr %v, ptr %p, align 8": "a type with pointers that isn't known",
    "  store atomic i64 %v, ptr %p seq_cst, align 8": "a store that isn't known",
    "  store [2 x ptr] %v, ptr %p, align 8": "a type with pointers that isn't known",
    "  %a = getelementptr ptr, ptr %p, i64 1": "a getelementptr that isn't known",
    "  %a = getelementptr { ptr, i64 }, ptr %p, i64 0, i32 1": "a getelementptr that isn't known",
    "  %a = getelementptr i8, <2 x ptr> %p, i64 1": "a getelementptr that isn't known",
    "  %a = insertelement <2 x ptr> poison, ptr %p, i64 0": "a vector of pointers",
    "  %a = bitcast <2 x ptr> %b to <2 x ptr>": "a vector of pointers",
    "  %a = icmp eq i64 ptrtoaddr (ptr @g to i64), 0": "a constant that isn't known",
    "  %a = select i1 %c, ptr getelementptr (ptr, ptr @g, i64 1), ptr null": "a constant that isn't known",
    "  %a = ptrtoaddr <2 x ptr> %p to <2 x i64>": "a ptrtoaddr that isn't known",
    "  %a = atomicrmw add ptr %p, i64 1 seq_cst, align 8": "an instruction that isn't known",
    "  %a = cmpxchg ptr %p, ptr %b, ptr %c seq_cst seq_cst, align 8": "an instruction that isn't known",
    "  %a = va_arg ptr %p, i64": "an instruction that isn't known",
    "  %a = addrspacecast ptr %p to ptr addrspace(1)": "an instruction that isn't known",
    "  %a = invoke i64 @f() to label %one unwind label %two": "an instruction that isn't known",
    "  call void @llvm.memcpy.p0.p0.i64(ptr %a, ptr %b, i64 %n, i1 true)": "a call of memcpy or its like that isn't known",
    "  call void @llvm.memcpy.inline.p0.p0.i64(ptr %a, ptr %b, i64 8, i1 false)": "a call of memcpy or its like that isn't known",
    "  %a = call ptr @llvm.ptrmask.p0.i64(ptr %p, i64 -8)": "an intrinsic with a pointer that isn't known",
    "  %a = call <2 x ptr> @llvm.masked.load.v2p0.p0(ptr %p, i32 8, <2 x i1> %m, <2 x ptr> %v)": "an intrinsic with a pointer that isn't known",
    "  %a = call i64 @llvm.objectsize.i64.p0(ptr %p, i1 false, i1 true, i1 false)": "an intrinsic with a pointer that isn't known",
    "  call void @f(ptr sret({ ptr, i64 }) %p)": "a parameter whose type has pointers",
    "  call { i64, i64 } @rattle_alloc(i64 8, i64 8)": "a call of an allocator that isn't known",
    "  %a = call { i8, ptr } @rattle_realloc(ptr %p, i64 8, i64 16, i64 8)": "a call of an allocator that isn't known",
    "  #dbg_value(i64 %a, !1, !2, !3)": "a line that isn't an instruction",
}

# Lines of a module outside its functions, and what they become.
OUTSIDE = {
    '@a = private constant [4 x i8] c"ptr\\00", align 1': '@a = private constant [4 x i8] c"ptr\\00", align 1',
    "@b = private unnamed_addr constant <{ ptr, [8 x i8], ptr }> <{ ptr @a, [8 x i8] c\"\\01\\00, (\\00\\00\\00\\00\", ptr getelementptr (i8, ptr @a, i64 1) }>, align 8":
        "@b = private unnamed_addr constant <{ ptr, [4 x i8], [8 x i8], ptr, [4 x i8] }> <{ ptr @a, [4 x i8] zeroinitializer, [8 x i8] c\"\\01\\00, (\\00\\00\\00\\00\", "
        "ptr getelementptr (i8, ptr @a, i64 1), [4 x i8] zeroinitializer }>, align 8",
    "declare void @llvm.memcpy.p0.p0.i64(ptr noalias writeonly captures(none), ptr noalias readonly captures(none), i64, i1 immarg) #3":
        "declare void @llvm.memcpy.p0.p0.i32(ptr noalias writeonly captures(none), ptr noalias readonly captures(none), i32, i1 immarg) #3",
    "declare { i64, i64 } @rattle_alloc(i64, i64) #1": "declare void @rokdaum_rattle_alloc(ptr noundef, i64, i64) #1",
    "declare void @rattle_dealloc(ptr) #1": "declare void @rattle_dealloc(ptr) #1",
    "declare i16 @llvm.sadd.sat.i16(i16, i16) #2": "declare i16 @llvm.sadd.sat.i16(i16, i16) #2",
    "define internal { ptr, i64 } @inside(ptr %p) #0 {": "define internal { ptr, i64 } @inside(ptr %p) #0 {",
    "define i32 @rokdaum_proved_open(ptr %a, ptr %b) #0 {": "define signext i32 @rokdaum_proved_open(ptr %a, ptr %b) #0 {",
    "define noundef i16 @rokdaum_proved_add(i16 %a, i16 %b) #0 {": "define signext noundef i16 @rokdaum_proved_add(i16 %a, i16 %b) #0 {",
    "define i8 @octet() #0 {": "define zeroext i8 @octet() #0 {",
    "define void @nothing(ptr %a) #0 {": "define void @nothing(ptr %a) #0 {",
    "define i64 @wide() #0 {": "define i64 @wide() #0 {",
    'attributes #0 = { nounwind "probe-stack"="inline-asm" "target-cpu"="x86-64-v2" "target-features"="+avx" }': 'attributes #0 = { nounwind "target-cpu"="cortex-m4" }',
    "}": "}",
    "one:": "one:",
    "; a comment": "; a comment",
    "!0 = !{i32 1}": "!0 = !{i32 1}",
}

OUTSIDE_REFUSED = {
    "@a = private constant ptr @b, align 8": "a global with pointers that isn't known",
    "@a = private constant [2 x ptr] [ptr @b, ptr @c], align 8": "a global with pointers that isn't known",
    "@a = private constant <{ ptr }> <{ ptr getelementptr (ptr, ptr @b, i64 1) }>, align 8": "a global whose members aren't known",
    "@a = thread_local global i64 0, align 8": "a global that isn't known",
    "@a = alias i8, ptr @b": "a global that isn't known",
    "declare void @llvm.memcpy.inline.p0.p0.i64(ptr, ptr, i64 immarg, i1 immarg)": "a declaration that isn't known",
    "declare { ptr, i64 } @of_c(ptr)": "a function of C that returns a struct",
    "define { ptr, i64 } @export(ptr %p) #0 {": "an export that isn't known",
    "define void @export(ptr sret([24 x i8]) %p) #0 {": "an export that takes a struct",
    "define void @export({ i64, i64 } %p) #0 {": "an export that takes a struct",
    "define fastcc i64 @export(ptr %p) #0 {": "an export that isn't known",
    "%struct = type { ptr, i64 }": "a line that isn't known",
    'module asm "nop"': "a line that isn't known",
    'target datalayout = "E-m:e-p:64:64-i64:64"': "not a module for x86-64",
}


class Rewritings(unittest.TestCase):
    def test_rewritten(self) -> None:
        for line, wanted in REWRITTEN.items():
            with self.subTest(line=line):
                self.assertEqual(rewritten(line, SMALL).split("\n"), wanted)

    def test_kept(self) -> None:
        for line in KEPT:
            with self.subTest(line=line):
                self.assertEqual(rewritten(line, SMALL), line)

    def test_refused(self) -> None:
        for line, why in {**REFUSED, **OUTSIDE_REFUSED}.items():
            with self.subTest(line=line):
                with self.assertRaises(Unknown) as refusal:
                    rewritten(line, SMALL)
                self.assertTrue(str(refusal.exception).startswith(f"{why}: "), str(refusal.exception))

    def test_outside_functions(self) -> None:
        for line, wanted in OUTSIDE.items():
            with self.subTest(line=line):
                self.assertEqual(rewritten(line, SMALL), wanted)

    def test_head(self) -> None:
        head = f'target datalayout = "{GIVEN}"\ntarget triple = "x86_64-unknown-linux-gnu"\n'
        self.assertEqual(rewritten(head, SMALL), f'target datalayout = "{SMALL.layout}"\ntarget triple = "{SMALL.triple}"\n')

    def test_added_names(self) -> None:
        """A value that is added has a name of its own in the whole module."""
        made = rewritten("  %a = load ptr, ptr %p, align 8\n  store ptr %a, ptr %q, align 8", SMALL)
        self.assertEqual(made.count("%to32.1 ="), 1)
        self.assertEqual(made.count("%to32.2 ="), 1)

    def test_wide(self) -> None:
        """With addresses of 64 bits no instruction changes, and neither does a global or a declaration."""
        lines = [*REWRITTEN, *KEPT, *REFUSED, *(it for it in OUTSIDE if it[0] in "@;!}"), "declare { i64, i64 } @rattle_alloc(i64, i64) #1"]
        for line in lines:
            self.assertEqual(rewritten(line, WIDE), line)
        self.assertEqual(rewritten("define i32 @f() #0 {", WIDE), "define signext i32 @f() #0 {")
        self.assertEqual(rewritten('attributes #0 = { "target-cpu"="x86-64-v2" }', WIDE), 'attributes #0 = { "target-cpu"="generic-rv64" "target-features"="+m,+a" }')

    def test_processors(self) -> None:
        """A processor whose bytes are in the other order is refused, and one on which an offset would change."""
        for layout in ("E-m:e-p:32:32-i64:64-n32-S64", "e-m:e-p:32:32-n8:16:32-S128"):
            with self.assertRaises(Unknown):
                rewritten("", Processor("x", layout, "x"))

    def test_command(self) -> None:
        """A refusal goes to the standard error with status 1, and leaves no file."""
        command = [sys.executable, "-B", str(TOP / "ports" / "to32.py")]
        words = ["--triple", SMALL.triple, "--layout", SMALL.layout, "--cpu", SMALL.cpu]
        with tempfile.TemporaryDirectory() as room:
            given, made = Path(room) / "in.ll", Path(room) / "out.ll"
            given.write_text("  fence seq_cst\n")
            ran = subprocess.run([*command, given, made, *words], capture_output=True, text=True, check=False)
            self.assertEqual((ran.returncode, ran.stdout, ran.stderr), (1, "", "to32: an instruction that isn't known: fence seq_cst\n"))
            self.assertFalse(made.exists())
            given.write_text("  ret void\n")
            ran = subprocess.run([*command, given, made, *words], capture_output=True, text=True, check=False)
            self.assertEqual((ran.returncode, made.read_text()), (0, "  ret void\n"))


if __name__ == "__main__":
    unittest.main()
