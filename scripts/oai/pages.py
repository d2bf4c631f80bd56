"""Runs the commands of pages, as they stand."""

import subprocess

from oai.programs import TOP, needs


class Shell:
    """A shell in a network of its own, which runs one block after the other."""

    def __init__(self):
        self.process = subprocess.Popen(
            ["unshare", "-n", "bash"], stdin=subprocess.PIPE, stdout=subprocess.PIPE, stderr=subprocess.STDOUT, cwd=TOP, text=True
        )
        self.count = 0
        self.run("ip link set lo up")

    def run(self, command):
        """The lines that the command prints. After one that leaves a program running it waits for its first output."""
        self.count += 1
        end = f"--end of {self.count}--"
        wait = 1.5 if command.rstrip().endswith("&") else 0.2
        self.process.stdin.write(f'{command}\nsleep {wait}; printf "\\n{end}\\n"\n')
        self.process.stdin.flush()
        lines = []
        for line in self.process.stdout:
            if line.strip() == end:
                break
            lines.append(line.rstrip("\r\n"))
        while lines and not lines[-1]:
            lines.pop()
        return lines

    def close(self):
        """Ends what the page left running, and the shell."""
        self.run("jobs -p | xargs -r kill")
        self.process.stdin.close()
        self.process.wait()


def run_page(path):
    """Runs a page, and writes it with what was printed."""
    lines, written, at = path.read_text().split("\n"), [], 0
    shell = Shell()
    while at < len(lines):
        if lines[at] != "```sh":
            written.append(lines[at])
            at += 1
            continue
        end = lines.index("```", at + 1)
        printed = shell.run("\n".join(lines[at + 1 : end]))
        written += lines[at : end + 1]
        at = end + 1
        if lines[at] == "```":
            at = lines.index("```", at + 1) + 1
            written += ["```", *printed, "```"]
        elif printed:
            print(f"{path.name}: no block for what is printed after line {end + 1}: {printed}")
    shell.close()
    path.write_text("\n".join(written))


def pages(*paths):
    """Runs the commands of pages, as they stand, and writes into them what is printed.

    Each block of `sh` is run in one shell for each page, in the folder of the repository and in a network of its own,
    in which the page's ports are free; what it prints, on both streams, is written into the block right after it. PAGES
    are docs/OPERATIONS.md and docs/PROTOCOL.md if none is given. It needs root, and the programs that the page needs.
    """
    needs("unshare", "ip", root=True)
    for page in paths or ["docs/OPERATIONS.md", "docs/PROTOCOL.md"]:
        run_page(TOP / page)
