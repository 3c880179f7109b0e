"""A disk that fails on demand: the kernel asks this process before a program writes to a file or syncs it (seccomp's user notifications,
from Linux 5.5 on). It needs no rights, no library and no compiler."""

import ctypes
import errno
import fcntl
import os
import platform
import select
import socket
import struct
import threading

ASKED = (18, 75)  # pwrite64 and fdatasync on x86-64
X86_64 = 0xC000003E
LOAD, IF_EQUAL, RETURN = 0x20, 0x15, 0x06
ALLOW, ASK = 0x7FFF0000, 0x7FC00000
SECCOMP, SET_FILTER, WITH_LISTENER = 317, 1, 8
NO_NEW_PRIVS = 38
TAKE, REPLY = 0xC0502100, 0xC0182101
GO_ON = 1


class Filter(ctypes.Structure):
    _fields_ = [("count", ctypes.c_ushort), ("steps", ctypes.c_char_p)]


def steps():
    """What the kernel does with a system call: it asks about those above, and allows all others."""
    def step(code, if_true, if_false, value):
        return struct.pack("HBBI", code, if_true, if_false, value)

    others = [step(LOAD, 0, 0, 4), step(IF_EQUAL, 0, len(ASKED) + 1, X86_64), step(LOAD, 0, 0, 0)]
    for place, number in enumerate(ASKED):
        others.append(step(IF_EQUAL, len(ASKED) - place, 0, number))
    return b"".join([*others, step(RETURN, 0, 0, ALLOW), step(RETURN, 0, 0, ASK)])


class FailingDisk:
    """Start a program with `preexec_fn=disk.watched`, then call `disk.begin()`. `fail("/node-2")` makes each write to a file whose path
    ends with this fail until `mend()`."""

    def __init__(self):
        self.ours, self.its = socket.socketpair(socket.AF_UNIX, socket.SOCK_DGRAM)
        self.end = None

    def watched(self):
        """In the new process: it is watched from here on."""
        libc = ctypes.CDLL(None, use_errno=True)
        program = steps()
        filter = Filter(len(program) // 8, program)
        libc.prctl(NO_NEW_PRIVS, 1, 0, 0, 0)
        listener = libc.syscall(SECCOMP, SET_FILTER, WITH_LISTENER, ctypes.byref(filter))
        if listener < 0:
            raise OSError(ctypes.get_errno(), "the kernel lets nobody watch a program's writes")
        self.its.sendmsg([b"listener"], [(socket.SOL_SOCKET, socket.SCM_RIGHTS, struct.pack("i", listener))])
        os.close(listener)

    def begin(self):
        """Answers the kernel from here on, in its own thread."""
        _, given, _, _ = self.ours.recvmsg(8, socket.CMSG_SPACE(4))
        self.listener = struct.unpack("i", given[0][2])[0]
        threading.Thread(target=self.answer_all, daemon=True).start()

    def fail(self, end):
        self.end = end

    def mend(self):
        self.end = None

    def answer_all(self):
        poll = select.poll()
        poll.register(self.listener, select.POLLIN)
        while not any(events & (select.POLLHUP | select.POLLNVAL) for _, events in poll.poll()):
            asked = bytearray(80)
            try:
                fcntl.ioctl(self.listener, TAKE, asked)
                number, thread, _, _, _, _, file = struct.unpack_from("QIIiIQQ", asked)
                fault = self.fault(thread, file)
                reply = struct.pack("Qqi I".replace(" ", ""), number, 0, -fault, 0 if fault else GO_ON)
                fcntl.ioctl(self.listener, REPLY, bytearray(reply))
            except OSError as error:
                # the call is no longer there
                if error.errno not in (errno.ENOENT, errno.EINTR):
                    return

    def fault(self, thread, file):
        """The error with which a thread's call on a file fails, 0 if it does not."""
        if self.end is None:
            return 0
        try:
            path = os.readlink(f"/proc/{thread}/fd/{file}")
        except OSError:
            return 0
        return errno.EIO if path.endswith(self.end) else 0


def is_possible():
    """Whether this system can watch a program's writes."""
    if platform.machine() != "x86_64":
        return False
    child = os.fork()
    if child == 0:
        try:
            FailingDisk().watched()
            os._exit(0)
        except BaseException:
            os._exit(1)
    return os.waitpid(child, 0)[1] == 0
