"""The program on a directory, for scripts that ask it many lines and measure."""
import os, subprocess, sys, threading, time

REFUSED = (b"{aborted", b"{badarg", b"{error")


def whole_run(program, directory, lines):
    """How many seconds a run takes over the lines of a file, with its start and its stop. The directory is made where it is not there, and no
    line is to be refused."""
    os.makedirs(directory, exist_ok=True)
    script, replies = f"{directory}.script", f"{directory}.replies"
    with open(script, "w") as file:
        file.writelines(f"{line}\n" for line in lines)
    with open(script) as source, open(replies, "w") as out:
        start = time.perf_counter()
        run = subprocess.run([program, directory], stdin=source, stdout=out)
        seconds = time.perf_counter() - start
    with open(replies, "rb") as file:
        answered = 0
        for answered, reply in enumerate(file, 1):
            if reply.startswith(REFUSED):
                sys.exit(f"a line was answered {reply}")
    if run.returncode != 0 or answered < len(lines):
        sys.exit(f"the run ended with status {run.returncode} and {answered} replies to {len(lines)} lines")
    return seconds


class Node:
    """A run of the program, and how many seconds its start took. The directory is made where it is not there."""

    def __init__(self, program, directory):
        os.makedirs(directory, exist_ok=True)
        start = time.perf_counter()
        self.run = subprocess.Popen([program, directory], stdin=subprocess.PIPE, stdout=subprocess.PIPE)
        if self.run.stdout.readline() != b"{started,0}\n":
            sys.exit("the start was answered otherwise")
        self.seconds = time.perf_counter() - start

    def ask(self, lines):
        """The replies to the lines, and how many seconds they take."""
        text = "".join(f"{line}\n" for line in lines).encode()
        start = time.perf_counter()
        writer = threading.Thread(target=self.send, args=[text])
        writer.start()
        replies = [self.run.stdout.readline() for _ in lines]
        seconds = time.perf_counter() - start
        writer.join()
        return replies, seconds

    def send(self, text):
        self.run.stdin.write(text)
        self.run.stdin.flush()

    def do(self, lines):
        """How many seconds the lines take, none of which is to be refused."""
        replies, seconds = self.ask(lines)
        for line, reply in zip(lines, replies):
            if not reply or reply.startswith(REFUSED):
                sys.exit(f"{line} was answered {reply}")
        return seconds

    def memory(self):
        """The bytes of memory that the program has now."""
        with open(f"/proc/{self.run.pid}/status") as status:
            kilobytes = next(line.split()[1] for line in status if line.startswith("VmRSS:"))
        return int(kilobytes) * 1024

    def end(self):
        self.run.stdin.close()
        if self.run.wait() != 0:
            sys.exit(f"the run ended with status {self.run.returncode}")

    def kill(self):
        self.run.kill()
        self.run.wait()
