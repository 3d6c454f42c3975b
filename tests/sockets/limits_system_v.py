"""As many message queues, semaphore sets and System V segments as the limits allow, full, and with every adjustment."""

from __future__ import annotations

import errno
import struct

from client import *  # noqa: F403
from limits_clients import GROUP, MAKE, MODE, NOW, USER, Most, share_of, text, word

# The value of a set's first semaphore, after which those of the others rise.
VALUE = 100


class SystemV(Most):
    """The objects of sysvipc(7)."""

    # -- message queues

    def make_queues(self) -> None:
        last = self.limits.msgmni
        for number in range(1, last + 1):
            self.ask_for(1, msgget_request(number, MAKE), number)
            self.fill_queue(number)
            self.stat_queue(number)
            self.count["queues"] += 1
        self.ask(1, msgget_request(last + 1, MAKE), errno.ENOSPC)
        self.ask(1, msgsnd_request(1, 1, text(1, 0, self.limits.msgmax + 1), IPC_NOWAIT), errno.EINVAL)

    def text_size(self, number: int) -> int:
        """The bytes of each text in a queue: in every other queue the most that a text may have, and else one, so that
        the queue comes to its limit in messages too."""
        return 1 if number % 2 else self.limits.msgmax

    def messages(self, number: int) -> int:
        """How many such texts a queue has room for."""
        return self.limits.msgmnb // self.text_size(number)

    def fill_queue(self, number: int) -> None:
        """Sends as many messages as the queue takes, all alike."""
        message = msgsnd_request(number, number, text(number, 0, self.text_size(number)), IPC_NOWAIT)
        self.ask(1, message, times=self.messages(number))
        self.ask(1, message, errno.EAGAIN)
        self.count["messages"] += self.messages(number)

    def stat_queue(self, number: int) -> None:
        messages, owner = self.messages(number), (USER, GROUP, USER, GROUP, MODE)
        held = (self.limits.msgmnb, messages, messages * self.text_size(number))
        self.tells(msgctl_stat_request(number), QUEUE_FORM, number, *owner, NOW, 0, NOW, 1, 0, *held)

    def find_queues(self) -> None:
        """Finds the queues full, empties and uses them, and has room for one after one is removed."""
        last = self.limits.msgmni
        for number in range(1, last + 1):
            # From that one messages have been received.
            if number != self.waited():
                self.stat_queue(number)
            self.empty_queue(number)
        self.ask(1, msgget_request(last + 1, MAKE), errno.ENOSPC)
        self.ask(1, msgctl_rmid_request(1))
        self.ask_for(1, msgget_request(last + 1, MAKE), last + 1)

    def empty_queue(self, number: int) -> None:
        """Receives each message, and then sends and receives one of the most bytes."""
        most, kind = self.limits.msgmax, struct.pack(">q", number)
        receive = msgrcv_request(number, most, 0, IPC_NOWAIT)
        self.ask(1, receive, 0, kind + text(number, 0, self.text_size(number)), self.messages(number))
        self.ask(1, receive, errno.ENOMSG)
        self.ask(1, msgsnd_request(number, number, text(number, 0, most)))
        self.ask(1, receive, 0, kind + text(number, 0, most))

    # -- semaphore sets

    def sets(self) -> int:
        """How many there may be, each of one semaphore at least."""
        return min(self.limits.semmni, self.limits.semmns)

    def left(self, number: int) -> int:
        """How many semaphores are left for a set and those that come later: each has as many as a set may have, as long
        as one is left for each other."""
        before = number - 1
        return max(self.limits.semmns - before * self.limits.semmsl, self.sets() - before)

    def size(self, number: int) -> int:
        return self.left(number) - self.left(number + 1)

    def make_sets(self) -> None:
        """Asks each time for one semaphore more than there may be, too."""
        for number in range(1, self.sets() + 1):
            if self.left(number) < self.limits.semmsl:
                self.ask(1, semget_request(number, self.left(number) + 1, MAKE), errno.ENOSPC)
            self.ask_for(1, semget_request(number, self.size(number), MAKE), number)
            self.use_set(number)
            self.count["sets"] += 1
            self.count["semaphores"] += self.size(number)
        self.ask(1, semget_request(self.sets() + 1, 1, MAKE), errno.ENOSPC)
        self.ask(1, semget_request(self.sets() + 1, self.limits.semmsl + 1, MAKE), errno.EINVAL)

    def use_set(self, number: int) -> None:
        """A list of the most operations is done, one of one more is not; then each semaphore has its value."""
        most, size = self.limits.semopm, self.size(number)
        self.set_values(number)
        self.ask(1, self.adds(number, range(most)))
        self.ask(1, self.adds(number, range(most + 1)), errno.E2BIG)
        self.ask(1, semctl_getval_request(number, 0), 0, word(VALUE + -(-most // size)))
        self.set_values(number)
        owner = (USER, GROUP, USER, GROUP, MODE)
        self.tells(semctl_stat_request(number), SET_FORM, number, *owner, NOW, NOW, size)

    def adds(self, number: int, places: range, flags: int = 0) -> bytes:
        """Adds 1 to the semaphores of a set, in turn."""
        return semop_request(number, [(place % self.size(number), 1, flags) for place in places])

    def set_values(self, number: int) -> None:
        """The value of the first semaphore is VALUE, and those of the others rise from there."""
        self.ask(1, semctl_setall_request(number, range(VALUE, VALUE + self.size(number))))
        self.has_values(number, VALUE)

    def has_values(self, number: int, first: int) -> None:
        values = struct.pack(f">{self.size(number)}H", *range(first, first + self.size(number)))
        self.ask(1, semctl_getall_request(number), 0, values)

    def adjust(self) -> None:
        """Each process adds 1 to each semaphore, with SEM_UNDO, by lists that are as long as they may be."""
        most, processes = self.limits.semopm, self.limits.processes
        for number in range(1, self.sets() + 1):
            size = self.size(number)
            lists = [range(begin, min(begin + most, size)) for begin in range(0, size, most)]
            self.set_values(number)
            with self.clients.at_once():
                for client in range(1, processes + 1):
                    for places in lists:
                        self.ask(client, self.adds(number, places, SEM_UNDO))
                        self.count["adjustments"] += len(places)
            self.has_values(number, VALUE + processes)

    def find_sets(self) -> None:
        """Finds the sets as they were before the adjustments, which the restart has taken back, and uses them."""
        last = self.sets()
        for number in range(1, last + 1):
            self.has_values(number, VALUE)
            self.use_set(number)
        self.ask(1, semget_request(last + 1, 1, MAKE), errno.ENOSPC)
        self.ask(1, semctl_rmid_request(last))
        self.ask_for(1, semget_request(last, self.size(last), MAKE), last + 1)

    # -- System V segments: one that comes and goes before all others, and these, from the number 2 on

    def make_shared(self) -> None:
        """Makes the segments, writes and reads them."""
        self.try_largest()
        for number in range(2, self.last_shared() + 1):
            size = self.shared_size(number)
            self.ask_for(1, shmget_request(number, size, MAKE), number)
            self.ask_for(1, shmat_request(number), 0)
            self.write_bytes(1, attached_write_request, 0, (number, size))
            self.has_shared(number)
            self.stat_shared(number, size, 0)
            self.count["shared"] += 1
            self.count["shared bytes"] += size
        self.ask(1, shmget_request(self.last_shared() + 1, 1, MAKE), errno.ENOSPC)

    def try_largest(self) -> None:
        """One segment has the most bytes. A process has it attached as often as it may have descriptors. Once it is
        removed it is still there until it is no longer attached."""
        size, most = self.limits.shmmax, self.limits.descriptors
        self.ask(1, shmget_request(1, size + 1, MAKE), errno.EINVAL)
        self.ask_for(1, shmget_request(1, size, MAKE), 1)
        for attachment in range(most):
            self.ask_for(1, shmat_request(1), attachment)
        self.ask(1, shmat_request(1), errno.EMFILE)
        self.write_bytes(1, attached_write_request, 0, (1, size))
        self.ask(1, shmctl_rmid_request(1))
        self.stat_shared(1, size, most)
        self.has_bytes(1, attached_read_request, 0, (1, size))
        # One byte more than it leaves, if one segment may have as many.
        if self.limits.shmall - size + 1 <= self.limits.shmmax:
            self.ask(1, shmget_request(2, self.limits.shmall - size + 1, MAKE), errno.ENOSPC)
        for attachment in range(most):
            self.ask(1, shmdt_request(attachment))
        self.ask(1, shmctl_stat_request(1), errno.EINVAL)

    def last_shared(self) -> int:
        return self.limits.shmmni + 1

    def shared_size(self, number: int) -> int:
        """The bytes of a segment: its part of them all, but no more than one may have."""
        return min(share_of(self.limits.shmall, self.limits.shmmni, number - 1), self.limits.shmmax)

    def has_shared(self, number: int) -> None:
        """The first client has a segment attached, reads it, and detaches it."""
        self.has_bytes(1, attached_read_request, 0, (number, self.shared_size(number)))
        self.ask(1, shmdt_request(0))

    def stat_shared(self, number: int, size: int, attachments: int) -> None:
        """The record of a segment that is attached so often: one that is was removed, and nobody has detached it."""
        key, mode, dtime = (0, MODE | SHM_DEST, 0) if attachments else (number, MODE, NOW)
        owner, times = (USER, GROUP, USER, GROUP, mode), (NOW, dtime, NOW)
        form = SYSTEM_V_SEGMENT_FORM
        self.tells(shmctl_stat_request(number), form, key, *owner, *times, 1, 1, attachments, size)

    def remove_last(self) -> None:
        """The last process attaches the last segment, by the descriptor that it opened last, and removes it. It is
        still there, and so there is room for none."""
        client, last, fd = self.limits.processes, self.last_shared(), self.limits.descriptors - 1
        self.ask(client, close_request(fd))
        self.ask_for(client, shmat_request(last), fd)
        self.ask(client, shmctl_rmid_request(last))
        self.ask(1, shmget_request(last + 1, 1, MAKE), errno.ENOSPC)

    def find_shared(self) -> None:
        """Finds the segments, but for the last, which went with the process that had it attached. So there is room for
        one, and again after one is removed."""
        last = self.last_shared()
        for number in range(2, last):
            self.stat_shared(number, self.shared_size(number), 0)
            self.ask_for(1, shmat_request(number), 0)
            self.has_shared(number)
        self.ask(1, shmctl_stat_request(last), errno.EINVAL)
        for number in (last + 1, last + 2):
            self.ask_for(1, shmget_request(number, self.shared_size(last), MAKE), number)
            self.ask(1, shmget_request(number + 1, 1, MAKE), errno.ENOSPC)
            self.ask(1, shmctl_rmid_request(number))
