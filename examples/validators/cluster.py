"""Three etcd members on this machine, to try validators with."""
import shutil
import subprocess

from engine import Stop


class Cluster:
    """Three etcd members on the loopback address, each with a folder of its own. They are ended by a kill, which harms
    nothing: what a member has answered is on its disk."""

    def __init__(self, folder, port):
        if not shutil.which("etcd"):
            raise Stop("etcd is not installed here: apt-get install etcd-server")
        self.folder, self.processes = folder, [None] * 3
        self.urls = [f"http://127.0.0.1:{port + 2 * it}" for it in range(3)]
        self.peers = [f"http://127.0.0.1:{port + 2 * it + 1}" for it in range(3)]

    def __enter__(self):
        self.folder.mkdir(parents=True, exist_ok=True)
        for member in range(3):
            self.start(member)
        return self

    def __exit__(self, *_):
        for process in filter(None, self.processes):
            process.kill()
            process.wait()

    def start(self, member):
        """Starts a member over its folder."""
        words = {
            "name": f"member{member}",
            "data-dir": str(self.folder / f"member{member}"),
            "listen-client-urls": self.urls[member],
            "advertise-client-urls": self.urls[member],
            "listen-peer-urls": self.peers[member],
            "initial-advertise-peer-urls": self.peers[member],
            "initial-cluster": ",".join(f"member{it}={url}" for it, url in enumerate(self.peers)),
        }
        command = ["etcd", *(f"--{name}={value}" for name, value in words.items())]
        with (self.folder / f"member{member}.log").open("ab") as told:
            self.processes[member] = subprocess.Popen(command, stdout=told, stderr=told)
        print(f"engine: member {member}, process {self.processes[member].pid}, at {self.urls[member]}", flush=True)

    def start_killed(self):
        """Starts each member again that was killed; one that ended by itself ends the run."""
        for member, process in enumerate(self.processes):
            if process.poll() is not None and process.returncode >= 0:
                log = self.folder / f"member{member}.log"
                raise Stop(f"etcd ended with status {process.returncode}: the end of {log} says why")
            if process.poll() is not None:
                print(f"engine: member {member} was killed", flush=True)
                self.start(member)
