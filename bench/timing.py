"""Runs commands on a text, and measures them."""
import os
import subprocess
import tempfile


def run(command, text):
    """What a command prints of a text, its processor time in seconds and its memory in MB."""
    with tempfile.TemporaryFile() as given:
        given.write(text.encode())
        given.seek(0)
        child = subprocess.Popen(command, stdin=given, stdout=subprocess.PIPE, stderr=subprocess.DEVNULL)
        said = child.stdout.read().decode()
        _, _, usage = os.wait4(child.pid, 0)
    return said, usage.ru_utime + usage.ru_stime, usage.ru_maxrss // 1024
