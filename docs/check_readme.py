"""Runs README's commands at a pseudo-terminal, and compares what they write with what README shows. See check_readme.sh."""

import os
import pty
import re
import select
import subprocess
import sys
import time

PROVING = re.compile(r"rt (run|ci)\b")
SECONDS = {False: 300, True: 3 * 3600}


def at_a_terminal(command, folder, seconds):
    """The exit status of a command and what it wrote; None where it didn't end in time."""
    terminal, end = pty.openpty()
    running = subprocess.Popen(["bash", "-c", command], cwd=folder, stdin=end, stdout=end, stderr=end)
    os.close(end)
    written = b""
    until = time.monotonic() + seconds
    while time.monotonic() < until:
        if not select.select([terminal], [], [], 1)[0]:
            continue
        try:
            more = os.read(terminal, 65536)
        except OSError:  # the other end is closed
            more = b""
        if not more:
            return running.wait(), written.decode().replace("\r\n", "\n")
        written += more
    running.kill()
    return None, written.decode()


def commands(readme):
    """README's commands, each with the lines of output that stand below it."""
    blocks = re.findall(r"^    (\S[^\n]*)\n\n(?:```console\n(.*?)^```$)?", readme, re.M | re.S)
    return [(command, output.splitlines()) for command, output in blocks]


def main():
    clone, *options = sys.argv[1:]
    with open(f"{clone}/README.md", encoding="utf-8") as file:
        readme = re.sub(r"^```(\w*)\n.*?^```$", lambda block: block[0] * (block[1] == "console"), file.read(), flags=re.M | re.S)
    wrong = []
    for command, output in commands(readme):
        proves = bool(PROVING.search(command))
        if proves and "--all" not in options:
            continue
        start = time.monotonic()
        status, written = at_a_terminal(command, clone, SECONDS[proves])
        print(f"{command}: status {status}, {time.monotonic() - start:.0f} s", flush=True)
        if status != 0:
            wrong.append(f"{command}: status {status}\n{written[-2000:]}")
        elif any(line not in written for line in output):
            wrong.append(f"{command}: another output than README shows:\n{written[-2000:]}")
    print("\n".join(wrong) if wrong else "README is as it says")
    raise SystemExit(1 if wrong else 0)


main()
