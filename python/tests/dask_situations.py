"""What a user sees over a Dask cluster when things go wrong, each situation in a process of its own.   dask_situations.py NAME"""

import contextlib
import logging
import os
import random
import signal
import socket
import ssl
import subprocess
import sys
import tempfile
import time

import rx10
from alone import LIMIT
from rx10.engines.handshake import Kind, make_hello
from situations import kill, nap, raises, same, touch, wait_for, wait_until
from test_tls import certificate

SITUATIONS = {}                                     # by name
TTL = 10                                            # seconds without a heartbeat, after which the scheduler gives a worker up


def situation(fn):
    SITUATIONS[fn.__name__] = fn
    return fn


def free_port():
    """A port that nothing uses, outside of those that the system gives to connections."""
    while True:
        port = random.randrange(10_000, 30_000)
        with contextlib.suppress(OSError), socket.create_server(("127.0.0.1", port)):
            return port


@contextlib.contextmanager
def cluster(workers=2, ttl=None, nannies=False, tls=None):
    """A scheduler and workers as programs, as on a real cluster; a nanny brings its worker back at the same address. Yields the client and
    the scheduler. `tls`: the paths of a certificate and its key, where the cluster uses TLS."""
    from distributed import Client, Security
    env = {**os.environ, **({"DASK_DISTRIBUTED__SCHEDULER__WORKER_TTL": ttl} if ttl else {})}
    address = f"{'tls' if tls else 'tcp'}://127.0.0.1:{free_port()}"
    words = ["--tls-ca-file", tls[0], "--tls-cert", tls[0], "--tls-key", tls[1]] if tls else []
    security = Security(tls_ca_file=tls[0], tls_client_cert=tls[0], tls_client_key=tls[1], require_encryption=True) if tls else None

    def start(*program):
        return subprocess.Popen([sys.executable, "-m", *program, *words], stdout=subprocess.DEVNULL, stderr=subprocess.DEVNULL, env=env)

    def ports():
        return ["--worker-port", str(free_port()), "--nanny-port", str(free_port())] if nannies else ["--no-nanny"]
    scheduler = start("distributed.cli.dask_scheduler", "--host", "127.0.0.1", "--port", address.rsplit(":", 1)[1], "--no-dashboard")
    processes = [start("distributed.cli.dask_worker", address, "--nthreads", "1", "--no-dashboard", *ports()) for _ in range(workers)]
    client = Client(address, timeout=LIMIT, security=security)
    try:
        client.wait_for_workers(workers, LIMIT)
        yield client, scheduler
    finally:
        with contextlib.suppress(Exception):
            client.close(timeout=2)
        end([*processes, scheduler])


def end(processes):
    for process in processes:
        process.terminate()
    for process in processes:
        try:
            process.wait(5)
        except subprocess.TimeoutExpired:
            process.kill()
            process.wait()


def tasks_of_dask(client):
    return client.run_on_scheduler(lambda dask_scheduler: [key for key in dask_scheduler.tasks if key.startswith("rx10")])


def plugins(client):
    return client.run_on_scheduler(lambda dask_scheduler: [name for name in dask_scheduler.plugins if "rx10" in name])


def count(path, seconds):
    """Writes a line each 20 ms."""
    until = time.monotonic() + seconds
    while time.monotonic() < until:
        with open(path, "a", encoding="ascii") as file:
            file.write("still here\n")
        time.sleep(0.02)


def size(path):
    return os.path.getsize(path) if os.path.exists(path) else 0


def stands_still(path):
    """Waits until a file grows no more."""
    def still():
        before = size(path)
        time.sleep(1)
        return size(path) == before
    wait_until(still)


@situation
def results_and_losses():
    with cluster() as (client, _):
        with rx10.dask(client) as rt:
            assert rt.places() == (0, 1, 2) and rt.at(1, lambda x: x + 1, 4) == 5
            worker = rt.at(1, os.getpid)
            with raises(rx10.DeadPlaces, 1):
                with rt.finish() as f:
                    lost, well = f.spawn(1, nap, LIMIT), f.spawn(2, same, 7)
                    kill(worker)
            assert lost.lost and well.result() == 7
        wait_until(lambda: not tasks_of_dask(client) and not plugins(client))


@situation
def encrypted():
    """The lines use the cluster's own certificates, and nobody else comes in."""
    with tempfile.TemporaryDirectory() as folder:
        own, other = certificate(folder, "own"), certificate(folder, "other")
        with cluster(tls=own) as (client, _), rx10.dask(client) as rt:
            assert rt.at(1, len, bytes(3_000_000)) == 3_000_000 and len(rt.at(2, bytes, 3_000_000)) == 3_000_000
            context = ssl.create_default_context(cafile=own[0])
            context.check_hostname = False
            for name in (None, other):                          # no certificate, and one of somebody else
                if name:
                    context.load_cert_chain(*name)
                with raises_any(OSError), socket.create_connection(rt.address) as sock, context.wrap_socket(sock) as encrypted:
                    encrypted.sendall(make_hello(Kind.LINE, 1))
                    if not encrypted.recv(1):
                        raise ConnectionResetError
            with socket.create_connection(rt.address) as sock:
                sock.sendall(b"rx10-2\r\n")
                sock.shutdown(socket.SHUT_WR)
                assert sock.recv(1) == b""
            with raises(rx10.DeadPlaces, 1):
                with rt.finish() as f:
                    f.spawn(1, nap, LIMIT)
                    well = f.spawn(2, same, 7)
                    kill(rt.where(1))
            assert well.result() == 7


@contextlib.contextmanager
def raises_any(kind):
    """The body must raise an error of this kind."""
    try:
        yield
    except kind:
        return
    raise AssertionError(f"it raised no {kind.__name__}")


@situation
def killed_and_back_at_the_same_address():
    with cluster(nannies=True) as (client, _), rx10.dask(client) as rt:
        first = rt.where(1)
        assert first.process == rt.at(1, os.getpid)
        with raises(rx10.DeadPlaces, 1):
            with rt.finish() as f:
                f.spawn(1, nap, LIMIT)
                kill(first.process)
        wait_until(lambda: can_join(rt))
        assert rt.places() == (0, 2, 3) and rt.at(3, same, 8) == 8
        assert rt.where(3).worker == first.worker and rt.where(3).process != first.process


def can_join(rt):
    try:
        return rt.join()
    except rx10.Misuse as full:
        assert "each worker" in str(full)
        return None


@situation
def retired():
    with cluster() as (client, _), rx10.dask(client) as rt:
        with raises(rx10.DeadPlaces, 1):
            with rt.finish() as f:
                f.spawn(1, nap, LIMIT)
                time.sleep(0.3)
                client.retire_workers([rt.where(1).worker])
        assert rt.places() == (0, 2)


@situation
def restarted():
    with cluster(nannies=True) as (client, _), rx10.dask(client) as rt:
        with raises(rx10.DeadPlaces, 1, 2):
            with rt.finish() as f:
                f.spawn(1, nap, LIMIT)
                f.spawn(2, nap, LIMIT)
                time.sleep(0.3)
                client.restart()
        assert rt.places() == (0,)


@situation
def silent_past_its_time():
    """The scheduler gives the worker up after a time without a heartbeat. Then it wakes up, and its task stops."""
    with tempfile.TemporaryDirectory() as folder, cluster(ttl=f"{TTL}s") as (client, _), rx10.dask(client) as rt:
        worker, path = rt.at(1, os.getpid), os.path.join(folder, "lines")
        with raises(rx10.DeadPlaces, 1):
            with rt.finish() as f:
                f.spawn(1, count, path, LIMIT)
                wait_until(lambda: size(path))
                os.kill(worker, signal.SIGSTOP)
        os.kill(worker, signal.SIGCONT)
        stands_still(path)


@situation
def told_dead_while_it_runs():
    with tempfile.TemporaryDirectory() as folder, cluster() as (client, _), rx10.dask(client) as rt:
        path = os.path.join(folder, "lines")
        with raises(rx10.DeadPlaces, 1):
            with rt.finish() as f:
                f.spawn(1, count, path, LIMIT)
                wait_until(lambda: size(path))
                rt.kill(1)
        stands_still(path)
        with raises(rx10.DeadPlaces, 2):
            with rt.finish() as f:
                f.spawn(2, call_again_and_again, folder)
                wait_for(folder, "runs")
                rt.kill(2)
        wait_for(folder, "refused")


def call_again_and_again(folder):
    """A place that was told dead may do nothing more in the job."""
    touch(folder, "runs")
    try:
        try:
            while True:
                rx10.at(0, same, 1)
        finally:
            touch(folder, "refused")
    finally:                                        # the first `finally` may be where the task is stopped
        touch(folder, "refused")


DRIVER = """
import os, sys
import rx10, dask_situations
from distributed import Client
if __name__ == "__main__":
    with rx10.dask(Client(sys.argv[1])) as rt:
        with rt.finish() as f:
            f.spawn(1, dask_situations.count, sys.argv[2], 300)
            dask_situations.wait_until(lambda: dask_situations.size(sys.argv[2]))
            os.kill(os.getpid(), 9)
"""


@situation
def driver_killed():
    with tempfile.TemporaryDirectory() as folder, cluster() as (client, _):
        path = os.path.join(folder, "lines")
        done = subprocess.run([sys.executable, "-c", DRIVER, client.scheduler.address, path], check=False)
        assert done.returncode == -signal.SIGKILL
        stands_still(path)
        wait_until(lambda: not tasks_of_dask(client) and not plugins(client))
        with rx10.dask(client) as rt:
            assert rt.at(1, same, 4) == 4 and rt.at(2, same, 5) == 5


@situation
def scheduler_killed():
    """The workers end by themselves."""
    with cluster() as (client, scheduler), rx10.dask(client) as rt:
        with raises(rx10.DeadPlaces, 1):
            with rt.finish() as f:
                f.spawn(1, nap, LIMIT)
                well = f.spawn(2, same, 4)
                rt.at(2, same, 0)                   # so that it has ended
                scheduler.kill()
        assert well.result() == 4


@situation
def worker_without_rx10():
    with tempfile.TemporaryDirectory() as folder:
        with cluster_without_rx10(folder) as client:
            with raises(rx10.Closed, text="cannot import rx10"):
                with rx10.dask(client):
                    pass


@contextlib.contextmanager
def cluster_without_rx10(folder):
    """The workers run in a folder of their own, and the package is not on their path."""
    old, here = os.environ.get("PYTHONPATH", ""), os.getcwd()
    os.environ["PYTHONPATH"] = folder
    os.chdir(folder)
    try:
        with cluster(1) as (client, _):
            yield client
    finally:
        os.environ["PYTHONPATH"] = old
        os.chdir(here)


@situation
def adaptive():
    """A cluster that shrinks where it is idle keeps the workers that are places."""
    from distributed import Client, LocalCluster
    with LocalCluster(n_workers=3, threads_per_worker=1, dashboard_address=None, silence_logs=logging.CRITICAL) as it, Client(it) as client:
        with rx10.dask(client) as rt:
            with rt.finish() as f:
                tasks = [f.spawn(place, nap, 4) for place in (1, 2, 3)]
                it.adapt(minimum=1, maximum=3, interval="500ms", wait_count=2)
            assert [task.result() for task in tasks] == [4, 4, 4]


if __name__ == "__main__":
    logging.getLogger("distributed").setLevel(logging.CRITICAL)
    import dask_situations                          # so that a worker finds what tasks run by this module's name
    dask_situations.SITUATIONS[sys.argv[1]]()
