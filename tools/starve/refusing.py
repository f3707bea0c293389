"""Runs a program under ptrace and refuses allocations of it. For Linux on x86-64.

A program of Rattle takes all its memory by two functions of its runtime, `rattle_alloc` and `rattle_realloc`. Each answers
whether there was memory in one register and the place in another, so a call is refused by returning at once, with a zero.
"""
import ctypes
import os
import resource
import signal
import struct
import subprocess
import tempfile
import threading

ALLOCATING = (b"rattle_alloc", b"rattle_realloc")
TRACE_ME, PEEK_DATA, PEEK_REGISTER, POKE_DATA, POKE_REGISTER, GO_ON, SET_OPTIONS = 0, 2, 3, 5, 6, 7, 0x4200
TRACE_THREADS, END_WITH_TRACER = 0x8, 0x100000  # options: each thread that is begun is traced too
ALL_THREADS = 0x40000000  # of a wait, which else passes over threads
RAX, RDX, RIP, RSP = 80, 96, 128, 152  # places of registers in what ptrace calls a user area
FIRST_INSTRUCTION = bytes.fromhex("f30f1efa")  # endbr64, which does nothing: a trap can take its place
NO_RANDOM_PLACES = 0x0040000
SECONDS, MOST_SECONDS = 20, 60  # of a processor, and by the clock

libc = ctypes.CDLL(None, use_errno=True)
libc.ptrace.argtypes = [ctypes.c_long, ctypes.c_long, ctypes.c_void_p, ctypes.c_void_p]
libc.ptrace.restype = ctypes.c_long


def ptrace(request, process, place=0, value=0):
    ctypes.set_errno(0)
    found = libc.ptrace(request, process, place, value)
    if ctypes.get_errno():
        raise OSError(ctypes.get_errno(), f"ptrace {request}")
    return found % 2**64


def entries(path):
    """The places of the allocating functions in the file of a program."""
    file = open(path, "rb").read()
    (table,) = struct.unpack_from("<Q", file, 40)
    size, count = struct.unpack_from("<HH", file, 58)
    sections = [struct.unpack_from("<IIQQQQIIQQ", file, table + size * i) for i in range(count)]
    found = []
    for _, kind, _, _, at, length, texts, _, _, each in sections:
        if kind != 2:  # a table of symbols
            continue
        names = sections[texts][4]
        for symbol in range(at, at + length, each):
            name, _, _, section, value, _ = struct.unpack_from("<IBBHQQ", file, symbol)
            end = file.index(b"\0", names + name)
            if section and file[names + name : end] in ALLOCATING:
                found.append(value)
    assert len(found) == len(ALLOCATING), f"{path} has not the functions of the runtime"
    for place in found:
        assert any(
            place - start + at == offset and file[offset : offset + 4] == FIRST_INSTRUCTION
            for _, kind, _, start, at, length, _, _, _, _ in sections
            if kind == 1 and start <= place < start + length
            for offset in [place - start + at]
        ), f"{path} has a function of the runtime that begins otherwise"
    return found


class Ended:
    """How a run ended: its status, what it wrote, and how many allocations it asked for."""

    def __init__(self, status, output, errors, allocations):
        self.status, self.output, self.errors, self.allocations = status, output, errors, allocations


def run(path, places, words, folder, refused, last=None):
    """Runs a program in a folder. `refused` tells of the number of an allocation, from 1, whether it is refused. Behind
    the number `last` none is looked at or counted any more."""

    def trace_me():
        libc.personality(NO_RANDOM_PLACES)
        resource.setrlimit(resource.RLIMIT_CPU, (SECONDS, SECONDS))
        ptrace(TRACE_ME, 0)

    with tempfile.TemporaryFile() as output, tempfile.TemporaryFile() as errors:
        child = subprocess.Popen([path, *words], cwd=folder, stdout=output, stderr=errors, preexec_fn=trace_me)
        os.waitpid(child.pid, 0)
        maps = open(f"/proc/{child.pid}/maps").read().splitlines()
        base = min(int(line.split("-")[0], 16) for line in maps if line.endswith(os.path.realpath(path)))
        traps = {base + place + 1: base + place for place in places}
        code = {place: ptrace(PEEK_DATA, child.pid, place) for place in traps.values()}
        for place, word in code.items():
            ptrace(POKE_DATA, child.pid, place, word & ~0xFF | 0xCC)
        ptrace(SET_OPTIONS, child.pid, 0, TRACE_THREADS | END_WITH_TRACER)
        hung = threading.Timer(MOST_SECONDS, os.kill, (child.pid, signal.SIGKILL))
        hung.start()
        allocations, threads = 0, {child.pid}
        ptrace(GO_ON, child.pid)
        while True:
            thread, state = os.waitpid(-1, ALL_THREADS)
            if not os.WIFSTOPPED(state):
                if thread == child.pid:  # it is told last
                    break
                continue
            given = os.WSTOPSIG(state)
            if state >> 16 or (given == signal.SIGSTOP and thread not in threads):  # a thread begins
                given = 0
            threads.add(thread)
            at = ptrace(PEEK_REGISTER, thread, RIP) if given == signal.SIGTRAP else None
            if at in traps:
                allocations, given = allocations + 1, 0
                if refused(allocations):
                    return_no_memory(thread)
                else:
                    ptrace(POKE_REGISTER, thread, RIP, traps[at] + len(FIRST_INSTRUCTION))
                if allocations == last:
                    for place, word in code.items():
                        ptrace(POKE_DATA, thread, place, word)
            try:
                ptrace(GO_ON, thread, 0, given)
            except ProcessLookupError:  # it was killed meanwhile
                pass
        hung.cancel()
        child.returncode = os.waitstatus_to_exitcode(state)
        for it in (output, errors):
            it.seek(0)
        return Ended(child.returncode, output.read(), errors.read(), allocations)


def return_no_memory(thread):
    """Returns from a function that was just entered, with the answer that there is no memory."""
    top = ptrace(PEEK_REGISTER, thread, RSP)
    ptrace(POKE_REGISTER, thread, RIP, ptrace(PEEK_DATA, thread, top))
    ptrace(POKE_REGISTER, thread, RSP, top + 8)
    ptrace(POKE_REGISTER, thread, RAX, 0)
    ptrace(POKE_REGISTER, thread, RDX, top)
