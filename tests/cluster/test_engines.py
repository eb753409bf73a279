"""Cases of ilocpieces under GNU parallel and Slurm, with the real programs."""
import getpass
import os
import socket
import subprocess
from pathlib import Path

from harness.place import Place, shown_on, until
from harness.program import TOP

SLURM = ("munged", "mungekey", "slurmctld", "slurmd", "sbatch", "scancel", "sinfo", "squeue")
HERE = "127.0.0.1"
BLOCKS = 3000


def free_ports(count):
    sockets = [socket.socket() for _ in range(count)]
    for made in sockets:
        made.bind((HERE, 0))
    ports = [made.getsockname()[1] for made in sockets]
    for made in sockets:
        made.close()
    return ports


class Engines(Place):
    def start(self, *words):
        """Starts a daemon, which ends with the case."""
        with open(self.path("daemons.log"), "a") as log:
            how = {"cwd": self.folder, "env": self.environment, "stdin": subprocess.DEVNULL}
            self.started.append(self.process(*words, stdout=log, stderr=log, **how))

    def until(self, what, holds):
        """Waits until this holds, while the daemons run."""
        def holds_or_ended():
            if any(daemon.poll() is not None for daemon in self.started):
                self.fail(f"{what}: a daemon ended: {self.text('daemons.log').splitlines()[-1:]}")
            return holds()
        until(what, holds_or_ended)

    def start_slurm(self):
        """Munge, the controller and one node, which is this machine."""
        self.started = []
        folder, host = self.path("slurm"), socket.gethostname().split(".")[0]
        os.chmod(self.folder, 0o711)       # munged needs its socket within reach of all
        for name in ("", "/state", "/spool"):
            os.mkdir(folder + name, 0o755)
        # All of it runs as the user who runs the test, and keeps its files in the folder.
        form = Path(f"{TOP}/tests/cluster/slurm.conf").read_text("ascii")
        self.write("slurm/slurm.conf", form.format(host=host, here=HERE, ports=free_ports(2), user=getpass.getuser(),
                                                   dir=folder, cpus=os.cpu_count()))
        self.environment["SLURM_CONF"] = f"{folder}/slurm.conf"
        self.expect("mungekey", self.call("mungekey", "--create", f"--keyfile={folder}/key")[0], 0)
        self.start("munged", "--foreground", f"--key-file={folder}/key", f"--socket={folder}/munge.socket",
                   f"--pid-file={folder}/munged.pid", f"--log-file={folder}/munged.log", f"--seed-file={folder}/seed")
        self.until("munged", lambda: os.path.exists(f"{folder}/munge.socket"))
        self.start("slurmctld", "-D")
        self.start("slurmd", "-D")
        self.until("the node is idle", lambda: self.call("sinfo", "--noheader", "--format=%T")[1] == b"idle\n")

    def write_blocks(self):
        """A file of some thousand blocks, of different lengths."""
        example = self.read("examples/dot.iloc")
        self.write("blocks", b"".join(b"b%d: %s%s" % (k, b"nop\n" * (k % 7), example) for k in range(BLOCKS)))
        count = int(self.call("ilocpieces", "split", "blocks", "pieces", "--bytes", "600000")[1])
        if count < 4:
            self.fail(f"{count} pieces are too few")
        return count

    def one_run(self, *words):
        return self.call("ilocfarm", *words, given=self.read("blocks"))

    def test_parallel_pieces(self):
        self.needs("parallel")
        count = self.write_blocks()
        line = f"seq {count} | parallel --bar PIECE={{}} ilocpieces job pieces ilocfarm schedule --mult 4 2>bar"
        self.expect("parallel", self.shell(line), (0, b""))
        self.expect("the bar is full", f"100% {count}:0=".encode() in self.read("bar"), True)
        self.expect("joined", self.call("ilocpieces", "join", "pieces"), self.one_run("schedule", "--mult", "4"))

    def test_parallel_fault(self):
        """The status of parallel is the number of jobs that failed, and join names the first fault."""
        self.needs("parallel")
        count = self.write_blocks()
        text = self.read("pieces/3.iloc").replace(b"mult r2, r3", b"mult r2 r3")
        self.write("pieces/3.iloc", text)
        self.write("blocks", b"".join(self.read(f"pieces/{number}.iloc") for number in range(1, count + 1)))
        self.expect("parallel", self.shell(f"seq {count} | parallel PIECE={{}} ilocpieces job pieces ilocfarm run"),
                    (1, b""))
        status, out, err = self.call("ilocpieces", "join", "pieces")
        self.expect("joined", (status, out, err.splitlines(True)[0]), self.one_run("run"))

    def test_slurm_killed_task(self):
        """A task that hangs with half of its listing written is killed. Nothing is joined, and the array run again
        gives one run's bytes."""
        self.needs(*SLURM)
        self.start_slurm()
        count = self.write_blocks()
        self.script("hanging", '#!/bin/sh\nif [ "$SLURM_ARRAY_TASK_ID" = 2 ] && mkdir hung 2>/dev/null; then\n'
                               '    ilocfarm "$@" | head -c 1000; exec sleep 600\nfi\nexec ilocfarm "$@"\n')
        again = [f"--array=1-{count}", "--output=log", "--wrap", "ilocpieces job pieces ./hanging counts"]
        status, job, err = self.call("sbatch", "--parsable", *again)
        self.expect("sbatch", (status, err), (0, b""))
        job = job.decode().strip()
        others = [f"pieces/{number}.result/status" for number in range(1, count + 1) if number != 2]
        self.until("all but task 2 end", lambda: all(os.path.exists(self.path(path)) for path in others))
        self.until("task 2 hangs", lambda: os.path.exists(self.path("hung")))
        self.expect("scancel", self.call("scancel", f"{job}_2"), (0, b"", b""))
        self.until("no task is left", lambda: self.call("squeue", "--noheader")[1] == b"")
        missing = b"ilocpieces: not run to their end: 2\n"
        self.expect("joined", self.call("ilocpieces", "join", "pieces"), (3, b"", missing))
        self.expect("sbatch", self.call("sbatch", "--quiet", "--wait", *again), (0, b"", b""))
        self.expect("joined", self.call("ilocpieces", "join", "pieces"), self.one_run("counts"))

    def test_documented(self):
        """The commands of docs/CLUSTER.md print what is shown there."""
        self.needs("parallel", *SLURM)
        self.start_slurm()
        self.follows(shown_on("docs/CLUSTER.md"))
