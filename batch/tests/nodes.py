"""Nodes for tries of the engines: an ssh server, and a Slurm controller with one node, started by hand on loopback and ended by their
process ids. They need Debian's packages openssh-server, parallel, slurmctld, slurmd, slurm-client and munge, and root."""

import os
import signal
import socket
import subprocess
import time

SSH_PORT, CONTROLLER_PORT, NODE_PORT = 20_022, 26_817, 26_818
LONG = 60  # seconds that a start may take


def wait_for(what, is_so, seconds=LONG):
    """Waits until a fact holds."""
    ends = time.time() + seconds
    while not is_so():
        if time.time() > ends:
            raise RuntimeError("%s didn't come in %d seconds" % (what, seconds))
        time.sleep(0.1)


def takes(port):
    with socket.socket() as probe:
        return probe.connect_ex(("127.0.0.1", port)) == 0


def write(folder, name, text, mode=0o600):
    path = os.path.join(folder, name)
    with open(path, "w") as f:
        f.write(text)
    os.chmod(path, mode)
    return path


def processes():
    """Each process that can be looked at: its id, its parent's and its environment."""
    for name in os.listdir("/proc"):
        if name.isdigit():
            try:
                with open("/proc/%s/stat" % name) as f:
                    parent = int(f.read().rpartition(")")[2].split()[1])
                with open("/proc/%s/environ" % name, "rb") as f:
                    yield int(name), parent, f.read().split(b"\0")
            except OSError:
                continue


def below(top):
    """A process and all that came from it."""
    parents = {number: parent for number, parent, _ in processes()}
    found = {top}
    while True:
        more = {number for number, parent in parents.items() if parent in found} - found
        if not more:
            return found
        found |= more


def end(numbers):
    """Ends processes at once: all are held first, so that none sees another end."""
    for kind in (signal.SIGSTOP, signal.SIGKILL):
        for number in numbers:
            try:
                os.kill(number, kind)
            except ProcessLookupError:
                pass


class Daemon:
    """A server that was started here, in the foreground."""

    def __init__(self, words, log, env=None):
        with open(log, "ab") as f:
            self.process = subprocess.Popen(words, stdin=subprocess.DEVNULL, stdout=f, stderr=f, env=env, start_new_session=True)

    def stop(self):
        self.process.terminate()
        try:
            self.process.wait(20)
        except subprocess.TimeoutExpired:
            self.process.kill()
            self.process.wait()


class SshNode:
    """An ssh server with keys of its own, and the login for GNU parallel."""

    def __init__(self, folder):
        self.folder = folder
        os.makedirs("/run/sshd", exist_ok=True)
        for name in ("host", "user"):
            subprocess.run(["ssh-keygen", "-q", "-t", "ed25519", "-N", "", "-f", os.path.join(folder, name)], check=True)
        self.conf = write(folder, "sshd_config", "\n".join([
            "Port %d" % SSH_PORT, "ListenAddress 127.0.0.1", "HostKey %s/host" % folder, "AuthorizedKeysFile %s/user.pub" % folder,
            "PidFile %s/sshd.pid" % folder, "PermitRootLogin prohibit-password", "StrictModes no", "UsePAM no", "MaxStartups 100"]) + "\n")
        self.login = "ssh -p %d -i %s/user -o StrictHostKeyChecking=no -o UserKnownHostsFile=%s/known -o LogLevel=ERROR root@127.0.0.1" % (
            SSH_PORT, folder, folder)
        self.start()

    def start(self):
        self.daemon = Daemon(["/usr/sbin/sshd", "-D", "-f", self.conf], os.path.join(self.folder, "sshd.log"))
        wait_for("the ssh server", lambda: takes(SSH_PORT))

    def lose(self):
        """The node is gone at once, with all that runs there."""
        end(below(self.daemon.process.pid))
        self.daemon.process.wait()

    def stop(self):
        self.daemon.stop()


SLURM_CONF = """ClusterName=try
SlurmctldHost={host}(127.0.0.1)
AuthType=auth/munge
AuthInfo=socket={folder}/munge.socket,cred_expire=5
CryptoType=crypto/munge
SlurmUser=root
SlurmdUser=root
SlurmctldPort={controller}
SlurmdPort={node}
StateSaveLocation={folder}/state
SlurmdSpoolDir={folder}/spool
SlurmctldPidFile={folder}/slurmctld.pid
SlurmdPidFile={folder}/slurmd.pid
SlurmctldLogFile={folder}/slurmctld.log
SlurmdLogFile={folder}/slurmd.log
ProctrackType=proctrack/linuxproc
TaskPlugin=task/none
JobAcctGatherType=jobacct_gather/none
SwitchType=switch/none
SelectType=select/cons_tres
SelectTypeParameters=CR_CPU
SchedulerParameters=sched_interval=1,batch_sched_delay=0
SlurmdTimeout=10
ReturnToService=2
MailProg=/bin/true
NodeName={host} NodeAddr=127.0.0.1 CPUs={cpus} State=UNKNOWN
PartitionName=main Nodes={host} Default=YES MaxTime=INFINITE State=UP
"""
MARK = "CLVERIFY_TRY_NODE"


class SlurmNode:
    """A Slurm controller with one node on this machine."""

    def __init__(self, folder):
        self.folder, host = folder, socket.gethostname().split(".")[0]
        for name in ("state", "spool"):
            os.makedirs(os.path.join(folder, name))
        os.chmod(folder, 0o755)
        with open(os.path.join(folder, "munge.key"), "wb") as f:
            f.write(os.urandom(128))
        os.chmod(os.path.join(folder, "munge.key"), 0o400)
        self.conf = write(folder, "slurm.conf", SLURM_CONF.format(
            host=host, folder=folder, controller=CONTROLLER_PORT, node=NODE_PORT, cpus=os.cpu_count()), 0o644)
        write(folder, "cgroup.conf", "CgroupPlugin=cgroup/v1\n", 0o644)
        self.env = {**os.environ, "SLURM_CONF": self.conf}
        self.munge = Daemon(["munged", "--foreground", "--force", "--key-file=%s/munge.key" % folder, "--socket=%s/munge.socket" % folder,
                             "--pid-file=%s/munged.pid" % folder, "--seed-file=%s/munged.seed" % folder, "--log-file=%s/munged.log" % folder],
                            os.path.join(folder, "munged.out"))
        wait_for("munge", lambda: os.path.exists(os.path.join(folder, "munge.socket")))
        self.controller = Daemon(["slurmctld", "-D", "-f", self.conf], os.path.join(folder, "slurmctld.out"), self.env)
        wait_for("the controller", lambda: takes(CONTROLLER_PORT))
        self.start()
        wait_for("the node", lambda: self.state() in ("idle", "mixed", "allocated"))

    def state(self):
        done = subprocess.run(["sinfo", "--noheader", "--format", "%T"], env=self.env, capture_output=True, text=True)
        return done.stdout.strip()

    def start(self):
        self.node = Daemon(["slurmd", "-D", "-f", self.conf], os.path.join(self.folder, "slurmd.out"), {**self.env, MARK: self.folder})

    def of_node(self):
        """The processes of the node: its daemon, what that starts for a task, and the tasks."""
        conf, mark = ("SLURM_CONF=" + self.conf).encode(), ("%s=%s" % (MARK, self.folder)).encode()
        own = {number for number, _, env in processes() if mark in env or conf in env and any(word.startswith(b"SLURM_JOB_ID=") for word in env)}
        return own | below(self.node.process.pid)

    def lose(self):
        """The node is gone at once, with all that runs there."""
        end(self.of_node())
        self.node.process.wait()

    def stop(self):
        for daemon in (self.node, self.controller, self.munge):
            daemon.stop()
        end(self.of_node() - {self.node.process.pid})
