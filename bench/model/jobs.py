"""What the spacecraft has released and not executed, and its two workers."""

from .packets import Fault


class Job:
    """A released message, to be executed."""

    def __init__(self, boot, number, message):
        self.boot = boot
        self.number = number
        self.message = message
        self.is_claimed = False
        self.is_read = False


class Jobs:
    """The jobs that aren't executed, in order of release, and what the workers have."""

    def __init__(self):
        self.boot = 0
        self.queue = []
        self.count = 0
        self.hands = {}

    def add(self, message):
        """Makes a job of a released message."""
        self.queue.append(Job(self.boot, self.count, message))
        self.count += 1

    def claim(self, worker):
        """Gives a worker the oldest job that waits."""
        if worker in self.hands:
            raise Fault(48, "HandFull")
        job = next((job for job in self.queue if not job.is_claimed), None)
        if job is None:
            raise Fault(51, "NoJob")
        job.is_claimed = True
        self.hands[worker] = job
        return f"claimed {job.boot} {job.number}"

    def commit(self, worker):
        """A worker hands its reading in, which is dropped where its job is of an earlier boot."""
        if worker not in self.hands:
            raise Fault(49, "HandEmpty")
        job = self.hands.pop(worker)
        if job.boot != self.boot:
            return f"stale {job.boot} {job.number}"
        job.is_read = True
        return f"committed {job.boot} {job.number}"

    def take(self):
        """The message of the oldest job, which is to be executed."""
        if not self.queue:
            raise Fault(51, "NoJob")
        if not self.queue[0].is_read:
            raise Fault(52, "NotReady")
        return self.queue.pop(0).message

    def restart(self):
        """Drops all jobs, and counts from 0; the workers keep what they have."""
        self.boot += 1
        self.queue = []
        self.count = 0
