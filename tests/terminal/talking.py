"""The program on a pseudo-terminal."""
import os

import pexpect

SOURCE = " ENTA 5\n INCA 7\n STA 100\n HLT\n END 0\n"
GREETING = "Type a command, such as step, back 1 or show regs; help lists them all, quit ends.\n"
PROMPT = "(mixrev) "
SECONDS = 30


class Terminal(pexpect.spawn):
    """A program on a terminal."""

    def __init__(self, *command, folder):
        environment = {**os.environ, "HOME": str(folder), "TERM": "xterm"}
        super().__init__(command[0], list(command[1:]), timeout=SECONDS, cwd=str(folder), env=environment, encoding="utf-8", dimensions=(24, 80))
        self.delaybeforesend = None
        self.ptyproc.delayafterclose = self.ptyproc.delayafterterminate = 0

    def seen(self, end=PROMPT):
        """What is seen before a text."""
        self.expect_exact(end)
        return self.before.replace("\r\n", "\n")

    def said(self, line, end=PROMPT):
        """What is seen after a line that is typed, before the next prompt."""
        self.send(line + "\n")
        seen = self.seen(end)
        assert seen.startswith(line + "\n")
        return seen.removeprefix(line + "\n")

    def end(self, line="quit\n"):
        """The status, after a line that ends the talk."""
        self.send(line)
        self.expect(pexpect.EOF)
        return self.wait()
