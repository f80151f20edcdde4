"""Places that mpirun, srun and ssh start, by the very commands of docs/python.md.   launchers.py mpirun|srun|ssh

It runs as root in namespaces of its own for processes and the network, so that each port is free, and nothing outlives it: `test_launchers`
sees to that. Slurm and the daemon of ssh are set up for it, on one machine.
"""

import contextlib
import os
import pathlib
import re
import secrets
import shlex
import signal
import socket
import subprocess
import sys
import threading
import time

import rx10
from situations import nap, raises, same, wait_until

PAGE = pathlib.Path(__file__).resolve().parents[2] / "docs" / "python.md"
SSHD = 2222                                         # the port of the daemon


def commands(word):
    """The code of the page that starts places by this program."""
    blocks = re.findall(r"^```\n(.*?)^```$", PAGE.read_text(encoding="utf-8"), re.DOTALL | re.MULTILINE)
    found = [block for block in blocks if word in re.split(r"[\s|]+", block)]
    assert len(found) == 1, (word, found)
    return found[0]


def run(*words):
    subprocess.run(words, check=True, stdout=subprocess.DEVNULL)


def write(path, text, mode=0o600):
    path.write_text(text, encoding="ascii")
    path.chmod(mode)
    return path


def with_mpirun(folder):
    """As root it wants to be asked twice, and it counts processors."""
    os.environ.update(OMPI_ALLOW_RUN_AS_ROOT="1", OMPI_ALLOW_RUN_AS_ROOT_CONFIRM="1", OMPI_MCA_rmaps_base_oversubscribe="1",
                      OMPI_MCA_plm="isolated", TMPDIR=str(folder))


def with_ssh(folder):
    """A daemon, and a client that takes each node for this machine."""
    for name in ("host", "user"):
        run("ssh-keygen", "-q", "-t", "ed25519", "-N", "", "-f", str(folder / name))
    os.makedirs("/run/sshd", exist_ok=True)
    config = write(folder / "config", f"Host *\n HostName 127.0.0.1\n Port {SSHD}\n User root\n IdentityFile {folder}/user\n"
                   f" StrictHostKeyChecking no\n UserKnownHostsFile {folder}/known\n LogLevel ERROR\n")
    write(folder / "bin" / "ssh", f'#!/bin/sh\nexec /usr/bin/ssh -F {config} "$@"\n', 0o755)
    daemon = write(folder / "sshd_config", f"Port {SSHD}\nListenAddress 127.0.0.1\nHostKey {folder}/host\nAuthorizedKeysFile {folder}/user.pub\n"
                   f"StrictModes no\nUsePAM no\nPermitRootLogin yes\nPidFile none\nSetEnv PATH={folder}/bin:/usr/bin:/bin\n")
    subprocess.Popen(["/usr/sbin/sshd", "-D", "-e", "-f", str(daemon)])
    wait_until(lambda: listens(SSHD))


def with_srun(folder):
    """One machine with all of Slurm."""
    for line in ("link add rx0 type veth peer name rx1", "addr add 10.98.0.1/24 dev rx0", "link set rx0 up", "link set rx1 up"):
        run("ip", *line.split())                    # it looks up no names where the loopback is the only device
    host, cores = socket.gethostname(), max(4, os.cpu_count() or 1)
    key = folder / "key"
    key.write_bytes(secrets.token_bytes(1024))
    key.chmod(0o400)
    for name in ("state", "spool", "log"):
        (folder / name).mkdir()
    os.environ["SLURM_CONF"] = str(write(folder / "slurm.conf", f"""
ClusterName=tests
SlurmctldHost={host}(127.0.0.1)
SlurmUser=root
SlurmdUser=root
AuthType=auth/munge
AuthInfo=socket={folder}/munge
StateSaveLocation={folder}/state
SlurmdSpoolDir={folder}/spool
SlurmctldPidFile={folder}/slurmctld.pid
SlurmdPidFile={folder}/slurmd.pid
SlurmctldLogFile={folder}/log/slurmctld
SlurmdLogFile={folder}/log/slurmd
ProctrackType=proctrack/pgid
TaskPlugin=task/none
SelectType=select/cons_tres
SelectTypeParameters=CR_Core
SlurmdParameters=config_overrides
ReturnToService=2
MpiDefault=none
NodeName={host} NodeAddr=127.0.0.1 CPUs={cores} State=UNKNOWN
PartitionName=all Nodes=ALL Default=YES MaxTime=INFINITE State=UP
""", 0o644))
    run("munged", "--force", f"--socket={folder}/munge", f"--key-file={key}", f"--pid-file={folder}/munge.pid", f"--log-file={folder}/log/munged",
        f"--seed-file={folder}/seed")
    for daemon in ("slurmctld", "slurmd"):
        run(daemon, *(["-N", host] if daemon == "slurmd" else []))
    wait_until(lambda: "idle" in subprocess.run(["sinfo", "-h", "-o", "%t"], capture_output=True, text=True, check=False).stdout)


def listens(port):
    with contextlib.suppress(OSError), socket.create_connection(("127.0.0.1", port)):
        return True
    return False


PREPARE = {"mpirun": with_mpirun, "srun": with_srun, "ssh": with_ssh}


def main(word, folder):
    run("ip", "link", "set", "lo", "up")
    (folder / "bin").mkdir()
    write(folder / "bin" / "python3", f'#!/bin/sh\nexec {shlex.quote(sys.executable)} "$@"\n', 0o755)
    os.environ.update(PATH=f"{folder}/bin:{os.environ['PATH']}:/usr/sbin:/sbin", HOST="127.0.0.1", RX10_TOKEN=secrets.token_hex(16))
    PREPARE[word](folder)
    subprocess.Popen(["bash", "-c", commands(word) + "\nwait"])
    with rx10.launched(places=4, port=7000, wait=300) as rt:
        assert [rt.at(p, same, p) for p in (1, 2, 3)] == [1, 2, 3]
        assert len({rt.where(p) for p in range(4)}) == 4 and all(rt.where(p).process == rt.at(p, os.getpid) for p in (1, 2, 3))
        print("started", flush=True)
        with raises(rx10.DeadPlaces, 1):
            with rt.finish() as f:
                f.spawn(1, nap, 1000)
                well = f.spawn(3, nap, 2)
                os.kill(rt.where(1), signal.SIGKILL)
        assert well.result() == 2 and rt.at(2, same, 5) == 5 and rt.at(3, same, 6) == 6
        print("killed", flush=True)
        os.kill(rt.where(2), signal.SIGSTOP)
        with rt.finish() as f:
            stopped = f.spawn(2, same, 7)
            assert rt.at(3, same, 8) == 8
            threading.Timer(1, os.kill, (rt.where(2), signal.SIGCONT)).start()
        assert stopped.result() == 7
        print("stopped", flush=True)
        with raises(rx10.DeadPlaces, 2, 3):
            with rt.finish() as f:
                f.spawn(2, nap, 1000)
                f.spawn(3, nap, 1000)
                time.sleep(0.5)                     # late on purpose
                run("ip", "link", "set", "lo", "down")
        far = [rt.where(p).process for p in (2, 3)]
        wait_until(lambda: not any(os.path.exists(f"/proc/{process}") and is_running(process) for process in far))
        print("cut", flush=True)


def is_running(process):
    with contextlib.suppress(OSError), open(f"/proc/{process}/stat", encoding="utf-8", errors="replace") as file:
        return file.read().rsplit(") ", 1)[1][0] not in "ZX"
    return False


if __name__ == "__main__":
    import launchers                                # so that a place finds what tasks run by this module's name
    launchers.main(sys.argv[1], pathlib.Path(sys.argv[2]))
