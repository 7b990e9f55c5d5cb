"""The code of the static library for wasm64 in place of x86-64.

Both have pointers of 64 bits, the low byte first, and the same sizes and places of fields, so that what was lowered for one
means the same on the other. What differs is the names of the target, what is said to x86 alone, and how a module's exports are
guarded: a call that traps leaves a mark, and each later call of that instance traps, as in what rattle itself builds for wasm64.
"""
import re

LAYOUT = "e-m:e-p:64:64-p10:8:8-p20:8:8-i64:64-i128:128-n32:64-S128-ni:1:10:20"
TRIPLE = "wasm64-unknown-unknown"
OF_X86 = re.compile(r' "(?:probe-stack|stack-probe-size|target-cpu|target-features|tune-cpu)"="[^"]*"')
BARRIER = 'call void asm sideeffect "", "~{memory}"()'  # no instruction: it keeps LLVM from moving memory's accesses
GUARDED = """
declare zeroext i1 @__rattle_enter()
declare void @__rattle_leave()
declare void @__rattle_trap()

define {kind} @{name}({parameters}) "wasm-export-name"="{name}" {{
start:
  %spent = call i1 @__rattle_enter()
  br i1 %spent, label %trap, label %run
trap:
  call void @__rattle_trap()
  unreachable
run:
  %status = call {kind} @"{name} itself"({arguments})
  call void @__rattle_leave()
  ret {kind} %status
}}
"""


class NotRetargeted(Exception):
    """Why code can't be taken for wasm64."""


def replaced(pattern, by, code):
    """The code with the one line that has this form replaced."""
    code, count = re.subn(pattern, lambda found: by, code, flags=re.M)
    if count != 1:
        raise NotRetargeted(f"{count} lines of the form {pattern}, where one is wanted")
    return code


def retargeted(code, name):
    """The code, LLVM's text, with the export of this name guarded."""
    if "llvm.x86." in code or " asm " in code.replace(BARRIER, ""):
        raise NotRetargeted("it has instructions of x86")
    code = replaced(r"^target datalayout = .*$", f'target datalayout = "{LAYOUT}"', code)
    code = replaced(r"^target triple = .*$", f'target triple = "{TRIPLE}"', code)
    code = OF_X86.sub("", code)
    if "x86" in code:
        raise NotRetargeted("it still speaks of x86")
    found = re.search(rf"^define (?:dso_local )?(?:noundef )?(?P<kind>(?:zeroext )?\w+) @{name}\((?P<parameters>[^)\n]*)\)(?P<rest>[^\n]*)\{{$", code, re.M)
    if not found:
        raise NotRetargeted(f"it has no function {name}")
    kind, parameters = found["kind"], found["parameters"]
    arguments = ", ".join(f"{it.split()[0]} {it.split()[-1]}" for it in parameters.split(", "))
    itself = f'define internal {kind} @"{name} itself"({parameters}){found["rest"]}' + "{"
    guarded = GUARDED.format(kind=kind, name=name, parameters=parameters, arguments=arguments)
    return code[: found.start()] + itself + code[found.end() :] + guarded
