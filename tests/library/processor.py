"""Processes of the library, and an emulated aarch64 processor (python3-unicorn) that runs them.

The pages that a process reads are mapped into the processor with their permissions, and nothing beside them. System calls that concern
memory or processes are put to the library.
"""
import struct
import subprocess

import unicorn
from unicorn import arm64_const as arm

PAGE = 4096
TEXT, RODATA, DATA = 1, 2, 3
ALLOWED = {TEXT: unicorn.UC_PROT_READ | unicorn.UC_PROT_EXEC, RODATA: unicorn.UC_PROT_READ,
           DATA: unicorn.UC_PROT_READ | unicorn.UC_PROT_WRITE}
EVERYTHING = dict.fromkeys(ALLOWED, unicorn.UC_PROT_ALL)

X = [getattr(arm, 'UC_ARM64_REG_X%d' % i) for i in range(31)]
SP, PC, FLAGS = arm.UC_ARM64_REG_SP, arm.UC_ARM64_REG_PC, arm.UC_ARM64_REG_NZCV
SYSTEM_CALL = 2  # the emulator's number of the exception that svc raises
NEVER = 1        # an address that no instruction has
SECONDS = 10

WRITE, EXIT, EXIT_ALL, BREAK, CLONE, PROTECT, WAIT = 64, 93, 94, 214, 220, 226, 260
NOT_THERE = 2**64 - 38  # Linux's answer for a system call that it doesn't have
PAGE_SIZE, RANDOM = 6, 25  # what Linux tells a program, by its numbers


class Failure(Exception):
    pass


class Refused(Failure):
    def __init__(self, number):
        super().__init__('the library refuses with %d' % number)
        self.number = number


class Library:
    """The processes of one run, kept by a program (processes.c). Process 1 is started from an image: an ELF, or an a.out by its magic."""
    program = None

    def __init__(self, setup, image, args, magic=0):
        self.top, self.size = setup[1:3]
        command = [self.program, *map(str, setup), str(magic), str(image), *args]
        self.running = subprocess.Popen(command, stdin=subprocess.PIPE, stdout=subprocess.PIPE)
        _, pc, sp, self.argc, self.argv = self.answer()
        self.registers = {PC: pc, SP: sp, X[0]: self.argc, X[1]: self.argv}

    def answer(self):
        """Value and registers of an answer that accepts."""
        words = self.running.stdout.read(56)
        if len(words) != 56:
            raise Failure('the library gives no answer')
        kind, number, *rest = struct.unpack('<7Q', words)
        if kind != 0:
            self.close()
            raise Refused(number)
        return rest

    def ask(self, *words, more=b''):
        self.running.stdin.write(' '.join(map(str, words)).encode() + b'\n' + more)
        self.running.stdin.flush()
        return self.answer()[0]

    def pages(self, number):
        """{address: (permission, bytes)}"""
        found = {}
        for _ in range(self.ask('pages', number)):
            address, permission = struct.unpack('<2Q', self.running.stdout.read(16))
            found[address] = permission, self.running.stdout.read(PAGE)
        return found

    def as_linux(self):
        """Enters process 1 as Linux does: at sp lie argc, argv, an empty environment, and what the program is told, here the size of a
        page and where 16 random bytes are, which are zeros. They are written below what start has pushed."""
        pages, random = self.pages(1), self.registers[SP] - 16
        argv = bytes(pages[at & -PAGE][1][at % PAGE] for at in range(self.argv, self.argv + 8 * self.argc + 8))
        told = struct.pack('<Q', self.argc) + argv + struct.pack('<7Q', 0, PAGE_SIZE, PAGE, RANDOM, random, 0, 0)
        sp = (random - len(told)) & -16
        self.ask('write', 1, sp, len(told), more=told)
        self.registers = {PC: self.registers[PC], SP: sp}
        return self

    def close(self):
        self.running.stdin.close()
        self.running.stdout.close()
        if self.running.wait() != 0:
            raise Failure('the library ends with %d' % self.running.returncode)


class Process:
    """A process in a processor: what it has printed; then how it ended, by a status, or stopped at a bad address."""
    count = 0

    def __init__(self, library, number, registers, pages=None, allowed=ALLOWED):
        self.library, self.number = library, number
        self.printed, self.status, self.fault = bytearray(), None, None
        self.permissions, self.allowed = {}, allowed
        self.cpu = unicorn.Uc(unicorn.UC_ARCH_ARM64, unicorn.UC_MODE_ARM)
        self.cpu.hook_add(unicorn.UC_HOOK_INTR, self.on_exception)
        self.cpu.hook_add(unicorn.UC_HOOK_MEM_INVALID, self.on_bad_access)
        self.map(pages or library.pages(number))
        for register, value in registers.items():
            self.cpu.reg_write(register, value)
        Process.count += 1

    def map(self, pages):
        """Maps the pages that aren't mapped yet."""
        for address, (permission, held) in pages.items():
            if address not in self.permissions:
                self.cpu.mem_map(address, PAGE, self.allowed[permission])
                self.cpu.mem_write(address, held)
                self.permissions[address] = permission

    def on_exception(self, cpu, number, _):
        self.exception = number
        if number == SYSTEM_CALL and cpu.reg_read(X[8]) == WRITE:
            self.write()
        else:
            cpu.emu_stop()

    def on_bad_access(self, cpu, access, address, size, value, _):
        self.fault = address
        return False

    def run(self):
        while self.status is None and self.fault is None:
            self.run_on()
        return self

    def run_on(self):
        """Up to the next system call that is no write."""
        self.exception = None
        try:
            self.cpu.emu_start(self.cpu.reg_read(PC), NEVER, timeout=SECONDS * 1000000)
        except unicorn.UcError as error:
            if self.fault is None:
                raise Failure(str(error))
            return
        if self.exception is None or self.exception == SYSTEM_CALL and self.cpu.reg_read(X[8]) == WRITE:
            raise Failure('process %d runs on after %d s' % (self.number, SECONDS))
        if self.exception != SYSTEM_CALL:
            raise Failure('process %d has a bad instruction' % self.number)
        self.system_call()

    def give(self, value):
        self.cpu.reg_write(X[0], value)

    def write(self):
        _, start, count = (self.cpu.reg_read(X[i]) for i in range(3))
        self.printed += self.cpu.mem_read(start, count)
        self.give(count)

    def system_call(self):
        number, first = self.cpu.reg_read(X[8]), self.cpu.reg_read(X[0])
        if number in (EXIT, EXIT_ALL):
            self.status = first & 255
        elif number == BREAK:
            self.give(self.library.ask('break', self.number, first))
            self.map(self.library.pages(self.number))
        elif number == CLONE:
            self.give(self.fork())
        elif number == PROTECT:
            self.give(0)  # the library has no call for it: the pages stay as they are
        elif number != WAIT:  # the child has ended, and its number is in x0 already
            self.give(NOT_THERE)

    def fork(self, child=16):
        """Puts what this process has written into its pages, forks it there, and runs the child to its end."""
        for address, permission in self.permissions.items():
            if permission == DATA:
                self.library.ask('write', self.number, address, PAGE, more=bytes(self.cpu.mem_read(address, PAGE)))
        self.library.ask('fork', self.number, child)
        registers = {register: self.cpu.reg_read(register) for register in X + [SP, PC, FLAGS]}
        made = Process(self.library, child, registers | {X[0]: 0}).run()
        if made.status is None:
            raise Failure('the child stops at %d' % made.fault)
        self.printed += made.printed
        self.library.ask('end', child)
        return child
