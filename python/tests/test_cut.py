"""Places on another machine: a network namespace of their own, whose link can be cut. It needs root, and `ip` of Debian's iproute2.

A place that holds its interpreter's lock while megabytes wait for it lives; a cut network is told at both ends, with or without traffic.
RX10_TEST_CUT=long has the lock held for 90 seconds in place of 45.
"""

import concurrent.futures
import os
import secrets
import shutil
import subprocess
import sys
import unittest

import alone

HELD = 90 if os.environ.get("RX10_TEST_CUT") == "long" else 45          # seconds: more than after which a silent machine is given up
TOLD = 60                       # seconds in which a cut is told on a busy machine; the kernels need 30

DRIVER = """
import ctypes, os, subprocess, sys, threading, time, rx10
MODE, HOST, LINK, HELD, TOLD = sys.argv[1], sys.argv[2], sys.argv[3], int(sys.argv[4]), int(sys.argv[5])
BIG = bytes(1 << 22)

def hold(seconds):
    ctypes.PyDLL(None).sleep(seconds)

def cut():
    subprocess.run(["ip", "link", "set", LINK, "down"], check=True)

def main():
    rt = rx10.launched(places=2, host=HOST)
    print("listens", rt.address[1], flush=True)
    with rt:
        far = rt.where(1).process
        if MODE == "lives":
            with rt.finish() as f:
                held = f.spawn(1, hold, HELD)
                time.sleep(1)
                waiting = [f.spawn(1, len, BIG) for _ in range(16)]
            assert not held.lost and [task.result() for task in waiting] == 16 * [len(BIG)]
            print("well", flush=True)
            return
        try:
            with rt.finish() as f:
                if MODE == "idle":
                    f.spawn(1, time.sleep, 600)
                elif MODE == "held":
                    f.spawn(1, hold, 40)
                time.sleep(1)
                if MODE != "idle":
                    for _ in range(8):
                        f.spawn(1, bytes, 1 << 24)              # goes and comes
                        f.spawn(1, len, BIG)
                        f.spawn(1, time.sleep, 0.2)
                    time.sleep(0.5 if MODE == "busy" else 2)
                begin = time.monotonic()
                cut()
        except rx10.DeadPlaces as lost:
            took = time.monotonic() - begin
            assert lost.places == (1,) and took < TOLD, (lost, took)
            print(f"the driver was told after {took:.0f} s", flush=True)
        while os.path.exists(f"/proc/{far}") and time.monotonic() < begin + TOLD + 10:
            time.sleep(0.1)
        assert not os.path.exists(f"/proc/{far}"), "the cut place lives on"
        print("well", flush=True)

main()
"""


def ip(line, check=True):
    return subprocess.run(["ip", *line.split()], check=check, stdout=subprocess.DEVNULL, stderr=subprocess.DEVNULL).returncode == 0


def can_make_namespaces():
    """Whether this user may, on this machine."""
    if os.geteuid() or not shutil.which("ip"):
        return False
    name = f"rx{secrets.token_hex(3)}"
    try:
        return ip(f"netns add {name}", check=False) and ip(f"-n {name} link add rxt type veth peer name rxu", check=False)
    finally:
        ip(f"netns del {name}", check=False)


def play(mode, number):
    """A driver here, and a place in a namespace of its own."""
    name, net = secrets.token_hex(3), f"10.99.{number}"
    near, far, space = f"rxa{name}", f"rxb{name}", f"rx{name}"
    try:
        for line in (f"netns add {space}", f"link add {near} type veth peer name {far}", f"link set {far} netns {space}",
                     f"addr add {net}.1/24 dev {near}", f"link set {near} up", f"-n {space} addr add {net}.2/24 dev {far}",
                     f"-n {space} link set {far} up", f"-n {space} link set lo up"):
            ip(line)
        with_place = (f"{sys.executable} - {mode} {net}.1 {near} {HELD} {TOLD} | while read -r what port; do echo $what $port; "
                      f"if [ $what = listens ]; then (ip netns exec {space} {sys.executable} -m rx10.serve -v {net}.1 $port; "
                      "echo the place ended with $?) & fi; done; wait")
        return alone.run(["bash", "-c", with_place], env={"RX10_TOKEN": secrets.token_hex(16)}, stdin=DRIVER, limit=300)
    finally:
        ip(f"link del {near}", check=False)
        ip(f"netns del {space}", check=False)


@unittest.skipUnless(can_make_namespaces(), "it makes network namespaces: it needs root, and `ip`")
class Cut(unittest.TestCase):
    MODES = ("lives", "idle", "busy", "held")

    @classmethod
    def setUpClass(cls):
        cls.pool = concurrent.futures.ThreadPoolExecutor(len(cls.MODES))            # they wait, and nothing else
        cls.results = {mode: cls.pool.submit(play, mode, 1 + number) for number, mode in enumerate(cls.MODES)}

    @classmethod
    def tearDownClass(cls):
        cls.pool.shutdown()

    def check(self, mode, status):
        done = self.results[mode].result()
        done.check(self)
        self.assertIn("well", done.output)
        self.assertIn(f"the place ended with {status}\n", done.output)

    def test_a_place_that_holds_its_interpreter_lives(self):
        self.check("lives", 0)

    def test_a_cut_without_traffic(self):
        self.check("idle", 9)

    def test_a_cut_with_traffic(self):
        self.check("busy", 9)

    def test_a_cut_while_megabytes_wait_for_a_held_interpreter(self):
        self.check("held", 9)
