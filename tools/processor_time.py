"""Runs of a program, measured in seconds of a processor, so that other work of the machine counts little."""
import os
import resource
import signal
import subprocess


def timed(words, folder, most, stack=None):
    """Returns the seconds of a processor, the peak of memory in MB, the status, and what is printed.

    The seconds are None, and so are the last two, where a run takes more than so many; `stack` is a limit in bytes.
    """
    def limited():
        resource.setrlimit(resource.RLIMIT_CPU, (most, most + 5))
        if stack:
            resource.setrlimit(resource.RLIMIT_STACK, (stack, stack))

    with open(f"{folder}/printed", "w+b") as out:
        process = subprocess.Popen(words, cwd=folder, stdin=subprocess.DEVNULL, stdout=out, stderr=subprocess.STDOUT, preexec_fn=limited)
        _, ended, used = os.wait4(process.pid, 0)
        process.returncode = os.waitstatus_to_exitcode(ended)
        out.seek(0)
        printed = out.read()
    peak = used.ru_maxrss / 1024
    if process.returncode == -signal.SIGXCPU:
        return None, peak, None, None
    return used.ru_utime + used.ru_stime, peak, process.returncode, printed
