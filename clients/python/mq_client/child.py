"""A broker that this program runs: `mq_broker pipe`, which is asked over its standard input and output."""
from __future__ import annotations

import logging
import shlex
import socket
import subprocess
from typing import Optional

log = logging.getLogger("mq_client")


class Child:
    """Runs a command, as `mq_broker pipe --store shop`, one run after another."""

    def __init__(self, command: str) -> None:
        self._words = shlex.split(command)
        if not self._words:
            raise ValueError("no command follows `pipe:`")
        self._run: Optional[subprocess.Popen[bytes]] = None

    def start(self, timeout: float) -> socket.socket:
        """Runs the command. What is written to this socket is its standard input, what is read its standard output.

        An earlier run is ended first, since it has the store. `OSError` where there is no such program.
        """
        self.end(timeout)
        ours, its = socket.socketpair()
        with its:
            try:
                self._run = subprocess.Popen(self._words, stdin=its, stdout=its)
            except OSError:
                ours.close()
                raise
        return ours

    def end(self, timeout: float) -> None:
        """Waits so long for the run to end, and kills it then."""
        if self._run is None:
            return
        try:
            status = self._run.wait(timeout)
        except subprocess.TimeoutExpired:
            self._run.kill()
            status = self._run.wait()
        self._run = None
        if status != 0:
            log.warning("%s ended with status %s", self._words[0], status)
