#!/usr/bin/env python3
"""memory.py: what our calls copy, the size of the state, and the stack that the calls need, of the programs `test_bench` and `test_replay` as they were last built.

Copies: `copies.c` is loaded before the C library and counts memcpy by size; a run of 200 less one of 100 is that of 100 calls. Stack: the frames
in the disassembly, added up along the deepest chain of calls; and the smallest stack in which a run ends well. What of a call is a function of its
own depends on the program: `test_replay` makes every call, so the larger of the two counts."""
import os, pathlib, re, resource, shutil, subprocess, sys, tempfile
from items import CALLS, KEEP_ALIVE

HERE = pathlib.Path(__file__).resolve().parent
TOP = HERE.parent.parent
OBJDUMP = shutil.which("x86_64-linux-gnu-objdump") or "objdump"
TOOLS = pathlib.Path(shutil.which("rt")).resolve().parent.parent / "toolchain"

REPEATED = 100

# The stores and their sizes (docs/SPEED.md, "The state"). A copy may leave a store's count out, or its padding: no more than 16 bytes.
STORES = {"events": 20488, "pending": 8784, "history": 2256, "checksums": 1544, "nonces": 1032}


def built(program):
    return TOP / "crates" / program / "out" / program


def copied(counter, item, count):
    """How often each size was copied."""
    run = subprocess.run([TOP / "launch", "test_bench"], input=item.record(count), capture_output=True, check=True, env={**os.environ, "PRELOAD": counter})
    return {int(size): int(times) for size, times in (line.split() for line in run.stderr.decode().splitlines())}


def copies():
    print(f"| {'item':48} | copies | bytes copied | in states |\n|{'-' * 50}|-------:|-------------:|----------:|")
    with tempfile.TemporaryDirectory() as folder:
        counter = f"{folder}/copies.so"
        compiler = [TOOLS / "bin/clang", "--target=x86_64-unknown-linux-gnu", "-fuse-ld=lld", "-nostdlib"]
        subprocess.run([*compiler, "-O2", "-shared", "-fPIC", "-fno-builtin", "-o", counter, HERE / "copies.c", TOOLS / "lib/libc.so.6"], check=True)
        each = {}
        for item in CALLS:
            once, twice = copied(counter, item, REPEATED), copied(counter, item, 2 * REPEATED)
            each[item] = {size: (twice[size] - once.get(size, 0)) / REPEATED for size in twice}
    # A KeepAlive changes no store, so what it copies is the endpoint: that is how its size is measured.
    state = max(size for size, times in each[KEEP_ALIVE].items() if times)
    for item, sizes in each.items():
        total = sum(size * times for size, times in sizes.items())
        print(f"| {item.label:48} | {sum(sizes.values()):6.1f} | {total:12,.0f} | {total / state:9.1f} |")
    print(f"\n| {'copies of':48} | endpoint | {' | '.join(STORES)} |\n|{'-' * 50}|{'---:|' * (1 + len(STORES))}")
    for item, sizes in each.items():
        by_part = [sum(times for size, times in sizes.items() if whole - 16 <= size <= whole) for whole in (state, *STORES.values())]
        print(f"| {item.label:48} | {' | '.join(f'{times:.1f}' for times in by_part)} |")
    print(f"\nthe state: {state:,} bytes")


def frames(program):
    """Each function's frame in bytes, and what it calls."""
    text = subprocess.run([OBJDUMP, "-d", "-C", "--no-show-raw-insn", built(program)], capture_output=True, text=True, check=True).stdout
    frame, calls = {}, {}
    for block in re.split(r"\n\n", text):
        head = re.match(r"[0-9a-f]+ <(.*)>:\n", block)
        if not head:
            continue
        name = head.group(1)
        calls[name] = set(re.findall(r"\bcall +[0-9a-f]+ <([^>+]*)>", block))
        pushed = len(re.findall(r"\bpush\b", "".join(block.splitlines()[:10])))
        # A large frame is probed page by page: in a loop up to r11, or one by one. Steps of 8 are for a call's arguments.
        looped = re.search(r"sub +\$0x([0-9a-f]+),%r11", block)
        steps = [int(n, 16) for n in re.findall(r"sub +\$0x([0-9a-f]+),%rsp", block)]
        steps = [n for n in steps if n > 8 and not (looped and n == 4096)]
        frame[name] = 8 * pushed + (int(looped.group(1), 16) if looped else 0) + sum(steps)
    return frame, calls


def deepest(name, frame, calls):
    return frame.get(name, 0) + 8 + max((deepest(called, frame, calls) for called in calls.get(name, ()) if called in frame), default=0)


def ends_within(item, kib):
    def limit():
        resource.setrlimit(resource.RLIMIT_STACK, (kib * 1024, kib * 1024))

    run = subprocess.run([built("test_bench")], input=item.record(REPEATED), capture_output=True, preexec_fn=limit)
    return run.returncode == 0


def least_stack(item):
    low, high = 16, 8192
    if not ends_within(item, high):
        sys.exit("bench: the exchange does not end well with a stack of 8 MiB")
    while high - low > 4:
        middle = (low + high) // 2
        low, high = (low, middle) if ends_within(item, middle) else (middle, high)
    return high


def stack():
    needs = {}
    for program in ("test_bench", "test_replay"):
        frame, calls = frames(program)
        for name in frame:
            if name.startswith(("endpoint::Endpoint::", "spectator::SpectatorSession::")):
                needs[name] = max(needs.get(name, (0, 0, "")), (deepest(name, frame, calls), frame[name], program))
    print(f"\n| {'function':42} | its frame | with what it calls | in          |\n|{'-' * 44}|----------:|-------------------:|-------------|")
    for name, (deep, own, program) in sorted(needs.items()):
        print(f"| {name:42} | {own:9,} | {deep:18,} | {program:11} |")
    print(f"\nthe exchange ends well with a stack of {least_stack(CALLS[-1])} KiB, and not with 4 KiB less")


copies()
stack()
