"""As many POSIX queues, named semaphores and segments as the limits allow, full, with as many descriptors as each
process may have."""

from __future__ import annotations

import errno
import struct

from client import *  # noqa: F403
from limits_clients import GROUP, MODE, USER, Most, share_of, text, word

# The longest name of a queue or of a segment, and of a semaphore.
NAME, SEM_NAME = 255, 251
# A deadline that is over.
OVER = 0


def name(number: int, length: int) -> str:
    """A name of so many bytes."""
    return "/" + str(number)[::-1].ljust(length - 1, "0")


def new_queue(number: int, most: int, size: int) -> bytes:
    return mq_open_request(name(number, NAME), O_CREAT | O_RDWR, MODE, MqAttr(maxmsg=most, msgsize=size))


def new_semaphore(number: int) -> bytes:
    return sem_open_request(name(number, SEM_NAME), O_CREAT | O_RDWR, MODE, number - 1)


def new_segment(number: int) -> bytes:
    return shm_open_request(name(number, NAME), O_CREAT | O_RDWR, MODE)


class Posix(Most):
    """The objects with names, and the descriptors of each process."""

    def named_objects(self) -> int:
        return self.limits.posix_queues + self.limits.named + self.limits.segments

    def owner(self, index: int) -> tuple[int, int]:
        """Who makes an object with a name, and by which descriptor: each client as many as it may have open, in
        turn."""
        before, fd = divmod(index, self.limits.descriptors)
        return before + 1, fd

    def make_posix_queues(self) -> None:
        """Makes the POSIX queues with the greatest attributes, and fills them."""
        most, size, last = self.limits.posix_messages, self.limits.posix_bytes, self.limits.posix_queues
        for number in range(1, last + 1):
            client, fd = self.owner(number - 1)
            self.ask_for(client, new_queue(number, most, size), fd)
            self.fill_posix_queue(client, fd, number)
            self.count["posix queues"] += 1
        client, _ = self.owner(last)
        self.ask(client, new_queue(last + 1, most + 1, size), errno.EINVAL)
        self.ask(client, new_queue(last + 1, most, size + 1), errno.EINVAL)
        self.ask(client, new_queue(last + 1, most, size), errno.ENOSPC)

    def fill_posix_queue(self, client: int, fd: int, number: int) -> None:
        """Sends as many messages of the most bytes as the queue takes, all alike."""
        most, size = self.limits.posix_messages, self.limits.posix_bytes
        message = mq_send_request(fd, text(number, 0, size), number, OVER)
        self.ask(client, message, times=most)
        self.ask(client, message, errno.ETIMEDOUT)
        self.ask(client, mq_send_request(fd, text(number, 0, size + 1), number, OVER), errno.EMSGSIZE)
        self.is_full(client, fd)
        self.count["posix messages"] += most

    def is_full(self, client: int, fd: int) -> None:
        most, size = self.limits.posix_messages, self.limits.posix_bytes
        self.ask(client, mq_getattr_request(fd), 0, struct.pack(ATTR_FORM, 0, most, size, most))

    def find_posix_queues(self) -> None:
        """Finds the POSIX queues full, empties and uses them, and has room for one after one is unlinked."""
        most, size, last = self.limits.posix_messages, self.limits.posix_bytes, self.limits.posix_queues
        for number in range(1, last + 1):
            self.ask_for(1, mq_open_request(name(number, NAME), O_RDWR), 0)
            self.is_full(1, 0)
            self.empty_posix_queue(number)
            self.ask(1, close_request(0))
        self.ask(1, new_queue(last + 1, most, size), errno.ENOSPC)
        self.ask(1, mq_unlink_request(name(1, NAME)))
        self.ask_for(1, new_queue(1, most, size), 0)
        self.ask(1, close_request(0))

    def empty_posix_queue(self, number: int) -> None:
        """Receives each message, and then sends one more."""
        size = self.limits.posix_bytes
        receive, content = mq_receive_request(0, size, OVER), text(number, 0, size)
        self.ask(1, receive, 0, word(number) + content, self.limits.posix_messages)
        self.ask(1, receive, errno.ETIMEDOUT)
        self.ask(1, mq_send_request(0, content))

    def make_semaphores(self) -> None:
        """Makes the named semaphores: the first of value 0, and each other one of one more."""
        last = self.limits.named
        for number in range(1, last + 1):
            client, fd = self.owner(self.limits.posix_queues + number - 1)
            self.ask_for(client, new_semaphore(number), fd)
            self.use_semaphore(client, fd, number - 1)
            self.count["named"] += 1
        client, _ = self.owner(self.limits.posix_queues + last)
        self.ask(client, new_semaphore(last + 1), errno.ENOSPC)

    def use_semaphore(self, client: int, fd: int, value: int) -> None:
        self.ask(client, sem_post_request(fd))
        self.ask(client, sem_getvalue_request(fd), 0, word(value + 1))
        self.ask(client, sem_trywait_request(fd))

    def find_semaphores(self) -> None:
        """Finds the named semaphores, uses them, and has room for one after one is unlinked."""
        last = self.limits.named
        for number in range(1, last + 1):
            self.ask_for(1, sem_open_request(name(number, SEM_NAME), 0), 0)
            self.use_semaphore(1, 0, number - 1)
            self.ask(1, close_request(0))
        self.ask(1, new_semaphore(last + 1), errno.ENOSPC)
        self.ask(1, sem_unlink_request(name(1, SEM_NAME)))
        self.ask_for(1, new_semaphore(1), 0)
        self.ask(1, close_request(0))

    def make_segments(self) -> None:
        """Makes the segments, which have all the bytes together that there may be; the first has them alone before."""
        before, last = self.limits.posix_queues + self.limits.named, self.limits.segments
        for number in range(1, last + 1):
            client, fd = self.owner(before + number - 1)
            self.ask_for(client, new_segment(number), fd)
            if number == 1:
                self.take_all_bytes(client, fd)
            self.fill_segment(client, fd, number)
            self.count["segments"] += 1
        client, _ = self.owner(self.named_objects())
        if client <= self.limits.processes:
            self.ask(client, new_segment(last + 1), errno.ENOSPC)

    def take_all_bytes(self, client: int, fd: int) -> None:
        """One segment has all bytes, and none more."""
        everything = self.limits.segment_bytes
        self.ask(client, ftruncate_request(fd, everything))
        self.ask(client, shm_write_request(fd, everything - 1, text(1, 0, 1)))
        self.ask(client, shm_read_request(fd, everything - 1, 1), 0, text(1, 0, 1))
        self.ask(client, ftruncate_request(fd, everything + 1), errno.ENOSPC)

    def share(self, number: int) -> int:
        """The bytes of a segment."""
        return share_of(self.limits.segment_bytes, self.limits.segments, number)

    def fill_segment(self, client: int, fd: int, number: int) -> None:
        """Gives a segment its bytes, writes and reads them."""
        length = self.share(number)
        self.ask(client, ftruncate_request(fd, length))
        self.write_bytes(client, shm_write_request, fd, (number, length))
        self.has_segment(client, fd, number)
        if number == self.limits.segments:
            self.ask(client, ftruncate_request(fd, length + 1), errno.ENOSPC)
        self.count["bytes"] += length

    def has_segment(self, client: int, fd: int, number: int) -> None:
        length = self.share(number)
        self.ask(client, shm_stat_request(fd), 0, struct.pack(SEGMENT_FORM, length, USER, GROUP, MODE))
        self.has_bytes(client, shm_read_request, fd, (number, length))

    def find_segments(self) -> None:
        """Finds the segments and their bytes, and has room for one after one is unlinked."""
        last = self.limits.segments
        for number in range(1, last + 1):
            self.ask_for(1, shm_open_request(name(number, NAME), O_RDWR), 0)
            self.has_segment(1, 0, number)
            self.ask(1, ftruncate_request(0, self.share(number) + 1), errno.ENOSPC)
            self.ask(1, close_request(0))
        self.ask(1, new_segment(last + 1), errno.ENOSPC)
        self.ask(1, shm_unlink_request(name(1, NAME)))
        self.ask_for(1, new_segment(1), 0)
        self.ask(1, ftruncate_request(0, self.share(1)))
        self.ask(1, close_request(0))

    def open_all(self, opened: int) -> None:
        """Each process opens objects until it has as many descriptors as it may have; so many are open already."""
        most = self.limits.descriptors
        self.count["descriptors"] = 0
        with self.clients.at_once():
            for client in range(1, self.limits.processes + 1):
                used = min(max(opened - most * (client - 1), 0), most)
                for fd in range(used, most):
                    self.ask_for(client, self.open_request(fd), fd)
                self.ask(client, self.open_request(most), errno.EMFILE)
                self.count["descriptors"] += most

    def open_request(self, fd: int) -> bytes:
        """Opens a queue, a semaphore or a segment, each in turn."""
        turn, kind = divmod(fd, 3)
        if kind == 0:
            return mq_open_request(name(turn % self.limits.posix_queues + 1, NAME), O_RDWR)
        if kind == 1:
            return sem_open_request(name(turn % self.limits.named + 1, SEM_NAME), 0)
        return shm_open_request(name(turn % self.limits.segments + 1, NAME), O_RDWR)
