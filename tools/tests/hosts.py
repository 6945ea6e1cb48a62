"""What the pages' commands want that a machine may lack: a second host, and a cluster. Both are this machine: an sshd of the
test's own, and Slurm's daemons with one node."""
import contextlib
import os
import pwd
import shutil
import signal
import socket
import subprocess
import time

SSHD = "/usr/sbin/sshd"
DAEMONS = ("munged", "slurmctld", "slurmd")
SECONDS = 30


def free_port():
    with socket.socket() as one:
        one.bind(("127.0.0.1", 0))
        return one.getsockname()[1]


def write(path, text, mode=0o600):
    with open(path, "w", encoding="ascii") as file:
        file.write(text)
    os.chmod(path, mode)
    return path


def waited(is_so):
    """Whether something is so within some seconds."""
    until = time.monotonic() + SECONDS
    while not is_so():
        if time.monotonic() > until:
            return False
        time.sleep(0.2)
    return True


def is_gone(number):
    """Whether a process has ended, also where nobody asked yet how."""
    try:
        with open("/proc/%d/stat" % number, encoding="ascii", errors="replace") as file:
            return file.read().rpartition(") ")[2][:1] == "Z"
    except OSError:
        return True


def end(pids):
    """Ends daemons by the numbers that they left in files, and waits for it: they write to the last."""
    for path in pids:
        with contextlib.suppress(OSError, ValueError):
            with open(path, encoding="ascii") as file:
                number = int(file.read())
            os.kill(number, signal.SIGTERM)
            waited(lambda number=number: is_gone(number))


@contextlib.contextmanager
def second_host(folder):
    """The words of the environment with which `ssh localhost` reaches this machine; none where it can't be so."""
    if not os.path.exists(SSHD) or not shutil.which("ssh") or not shutil.which("ssh-keygen"):
        yield None
        return
    place, port = os.path.join(folder, "ssh"), free_port()
    os.makedirs(place)
    for name in ("host", "me"):
        subprocess.run(["ssh-keygen", "-q", "-t", "ed25519", "-N", "", "-f", os.path.join(place, name)], check=True)
    with contextlib.suppress(OSError):
        os.makedirs("/run/sshd", exist_ok=True)
    config = write(os.path.join(place, "config"), "Port %d\nListenAddress 127.0.0.1\nHostKey %s/host\nAuthorizedKeysFile %s/me.pub\n"
                   "PidFile %s/pid\nStrictModes no\nUsePAM no\nPermitRootLogin yes\n" % (port, place, place, place))
    write(os.path.join(place, "ssh"), "#!/bin/sh\nexec %s -p %d -i %s/me -o StrictHostKeyChecking=no -o UserKnownHostsFile=/dev/null"
          " -o LogLevel=ERROR -o BatchMode=yes \"$@\"\n" % (shutil.which("ssh"), port, place), 0o700)
    daemon = subprocess.Popen([SSHD, "-D", "-f", config], stdout=subprocess.DEVNULL, stderr=subprocess.DEVNULL)
    words = {"PATH": place + os.pathsep + os.environ["PATH"], "SECOND": "localhost", "PARALLEL_SSH": os.path.join(place, "ssh")}
    try:
        def is_there():
            return subprocess.run([os.path.join(place, "ssh"), "localhost", "true"], stdout=subprocess.DEVNULL,
                                  stderr=subprocess.DEVNULL).returncode == 0
        yield words if daemon.poll() is None and waited(is_there) else None
    finally:
        daemon.terminate()
        daemon.wait()


@contextlib.contextmanager
def cluster(folder):
    """The words of the environment with which Slurm's commands reach a cluster of this machine alone; none where it can't be so."""
    programs = [shutil.which(name, path=os.environ["PATH"] + ":/usr/sbin") for name in DAEMONS]
    if not all(programs) or not shutil.which("sbatch") or os.getuid():
        yield None
        return
    place, name = os.path.join(folder, "slurm"), socket.gethostname().split(".")[0]
    os.makedirs(os.path.join(place, "state"))
    os.makedirs(os.path.join(place, "spool"))
    with open(os.path.join(place, "key"), "wb") as file:
        file.write(os.urandom(1024))
    os.chmod(os.path.join(place, "key"), 0o400)
    config = write(os.path.join(place, "slurm.conf"), "".join(line + "\n" for line in (
        "ClusterName=one", "SlurmctldHost=" + name, "AuthType=auth/munge", "AuthInfo=socket=%s/socket" % place,
        "ProctrackType=proctrack/linuxproc", "TaskPlugin=task/none", "SlurmUser=" + pwd.getpwuid(0).pw_name,
        "SlurmctldPort=%d" % free_port(), "SlurmdPort=%d" % free_port(), "StateSaveLocation=%s/state" % place,
        "SlurmdSpoolDir=%s/spool" % place, "SlurmctldPidFile=%s/ctld.pid" % place, "SlurmdPidFile=%s/d.pid" % place,
        "SlurmctldLogFile=%s/ctld.log" % place, "SlurmdLogFile=%s/d.log" % place, "SelectType=select/cons_tres",
        "SelectTypeParameters=CR_Core", "ReturnToService=2", "SchedulerParameters=sched_interval=2,batch_sched_delay=1",
        "NodeName=%s CPUs=%d State=UNKNOWN" % (name, os.cpu_count()), "PartitionName=all Nodes=ALL Default=YES State=UP")), 0o644)
    words = {"SLURM_CONF": config}
    quiet = {"stdout": subprocess.DEVNULL, "stderr": subprocess.DEVNULL}
    try:
        started = [subprocess.run([programs[0], "--force", "--key-file=%s/key" % place, "--socket=%s/socket" % place,
                                   "--pid-file=%s/munge.pid" % place, "--log-file=%s/munge.log" % place, "--seed-file=%s/seed" % place],
                                  **quiet)]
        waited(lambda: os.path.exists(os.path.join(place, "socket")))
        started += [subprocess.run([program, "-f", config], env=dict(os.environ, **words), **quiet) for program in programs[1:]]

        def is_idle():
            ended = subprocess.run(["sinfo", "-h", "-o", "%t"], stdout=subprocess.PIPE, stderr=subprocess.DEVNULL,
                                   env=dict(os.environ, **words))
            return ended.stdout.strip() == b"idle"
        yield words if not any(one.returncode for one in started) and waited(is_idle) else None
    finally:
        end(os.path.join(place, name) for name in ("d.pid", "ctld.pid", "munge.pid"))
