"""Waiting for a call so that Ctrl-C and a time limit end the wait."""
from __future__ import annotations

import _thread
import threading
from collections.abc import Callable


def interruptibly(run: Callable[[], int], timeout: float | None) -> int:
    """What a function answers. It runs in a thread of its own if the wait for it may have to end
    first: after `timeout` seconds, which raises TimeoutError, or in the main thread by Ctrl-C. The
    function goes on then, and what it answers is dropped."""
    if timeout is not None and not timeout >= 0:
        raise ValueError(f"a timeout is a number of seconds from 0 on, and not {timeout}")
    if timeout is None and threading.current_thread() is not threading.main_thread():
        return run()
    answers: list[int | BaseException] = []
    running = threading.Lock()

    def work() -> None:
        try:
            answers.append(run())
        except BaseException as error:
            answers.append(error)
        finally:
            running.release()

    running.acquire()
    try:
        # The process does not wait for such a thread when it ends.
        _thread.start_new_thread(work, ())
    except RuntimeError:
        # No thread can be started: there are too many, or the process is at its end.
        if timeout is None:
            return run()
        raise
    if not running.acquire(timeout=-1 if timeout is None else min(timeout, threading.TIMEOUT_MAX)):
        raise TimeoutError(f"the call has not ended within {timeout} seconds")
    answer, = answers
    if isinstance(answer, BaseException):
        raise answer
    return answer
