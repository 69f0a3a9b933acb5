"""One `tss_mirror`, spoken to line by line."""

import asyncio
import contextlib
import os
import re
import signal
import time

from match_lines import Wrong

HOW_TO_BUILD = "build it by `cd crates/tss_mirror && rt run`, or name it by --mirror-program"

# An answer ends with one of these lines.
END = re.compile(rb"(?:^|(?<=\n))(ok|done|refused line [^\n]*)\n")


class Died(Exception):
    """The process is gone before it answered: how."""


class Answer:
    """What was told to one line: its lines, and the refusal in place of `ok`, if there is one."""

    def __init__(self, text, end):
        self.lines = text.decode("ascii").split("\n")[:-1]
        self.refusal = end.decode("ascii") if end.startswith(b"refused") else None
        self.is_end = end == b"done"


class MirrorProcess:
    """A process that hangs for `PATIENCE` seconds is killed. `journal`, if there is one, gets what it answered."""

    PATIENCE, END_PATIENCE = 5.0, 30.0

    def __init__(self, program, number, head, setup):
        self.program, self.number, self.head, self.setup = program, number, head, setup
        self.process, self.buffer, self.turn, self.since, self.journal = None, b"", asyncio.Lock(), None, None

    @contextlib.asynccontextmanager
    async def request(self):
        """One request after another. A process that is left before it answered all is ended: no answer is taken for another's."""
        async with self.turn:
            self.since = time.monotonic()
            try:
                yield
            except BaseException:
                self.end()
                raise
            finally:
                self.since = None

    async def begin(self):
        """Starts it and feeds it the head. A match that it refuses is `Wrong`."""
        async with self.request():
            self.buffer = b""
            try:
                self.process = await asyncio.create_subprocess_exec(
                    self.program, str(self.number), stdin=asyncio.subprocess.PIPE, stdout=asyncio.subprocess.PIPE, start_new_session=True)
            except OSError as fault:
                raise Wrong(f"{self.program}: {fault.strerror}; {HOW_TO_BUILD}")
            head = [self.head, *self.setup]
            answer = (await self.answers(head, 1, self.PATIENCE))[0]
            if answer.refusal:
                raise Wrong(f"mirror {self.number}: {answer.refusal} (counted from '{self.head}')")
            if self.journal:
                self.journal.anew(head)

    async def ask(self, *lines, patience=None):
        """The answers to these lines, which are sent together."""
        async with self.request():
            answers = await self.answers(lines, len(lines), patience or self.PATIENCE)
            if self.journal:
                self.journal.add(lines)
            return answers

    async def answers(self, lines, count, patience):
        try:
            self.process.stdin.write("".join(line + "\n" for line in lines).encode("ascii"))
            return [await self.answer(patience) for _ in range(count)]
        except TimeoutError:
            raise Died(f"hasn't answered for {patience:g} s and was killed")
        except (ConnectionError, BrokenPipeError):
            raise Died("died")

    async def answer(self, patience):
        while True:
            found = END.search(self.buffer)
            if found:
                text, self.buffer = self.buffer[:found.start()], self.buffer[found.end():]
                return Answer(text, found.group(1))
            async with asyncio.timeout(patience):
                piece = await self.process.stdout.read(1 << 18)
            if not piece:
                raise Died("died")
            self.buffer += piece

    def silent_for(self):
        """For how many seconds an answer is waited for."""
        since = self.since
        return 0.0 if since is None else time.monotonic() - since

    def end(self):
        # `Process.kill` asks first whether it has ended, which takes the status away from who waits for it
        if self.process and self.process.returncode is None:
            try:
                os.kill(self.process.pid, signal.SIGKILL)
            except ProcessLookupError:
                pass  # it has ended

    async def stop(self):
        if self.process and self.process.returncode is None:
            self.end()
            await self.process.wait()
        if self.process:
            self.process.stdin.close()
            try:
                await self.process.stdin.wait_closed()
            except (ConnectionError, BrokenPipeError):
                pass  # what was still to be written is lost with the process
