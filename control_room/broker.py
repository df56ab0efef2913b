"""The broker: nodes of RabbitMQ with folders of their own, on the loopback address, without privileges and without plugins."""
import json
import os
import secrets
import shutil
import socket
import subprocess
import time
from dataclasses import dataclass
from pathlib import Path
from typing import Any, Dict, List, Optional

from control_room import remnants
from control_room.access import Access
from control_room.whole import write_whole

SERVER = "/usr/lib/rabbitmq/bin"
LOOPBACK = "127.0.0.1"
# Nodes speak to each other on the loopback address alone, and processors that have nothing to do wait without spinning.
ERLANG_WORDS = "-kernel inet_dist_use_interface {127,0,0,1} +sbwt none +sbwtdcpu none +sbwtdio none"
# Seconds in which a node is up, at most.
PATIENCE = 300.0
# This file stands in the folder of a broker whose streams are still to be made: nobody has said anything to it (streams.py).
UNMADE = "unmade"


class BrokerError(Exception):
    """Why there is no broker."""


def is_installed() -> bool:
    """Returns whether Debian's rabbitmq-server is there."""
    return os.path.exists(f"{SERVER}/rabbitmqctl") and shutil.which("epmd") is not None


def free_port() -> int:
    """Returns a port of the loopback address that nobody has now."""
    with socket.socket() as probe:
        probe.bind((LOOPBACK, 0))
        port: int = probe.getsockname()[1]
        return port


@dataclass
class Node:
    """One node: its name, its folder, the ports on which it listens, and its process."""
    name: str
    folder: Path
    port: int
    distance_port: int
    process: "Optional[subprocess.Popen[bytes]]" = None

    @property
    def data(self) -> Path:
        """The folder of what the node keeps."""
        return self.folder / "data"

    def must_run(self) -> None:
        """Raises BrokerError where the node's process has ended."""
        if self.process and self.process.poll() is not None:
            raise BrokerError(f"the broker ended with status {self.process.returncode}: {last_line(self.folder / 'output')}")


class Broker:
    """One node or several, with the name service (epmd) that Erlang's nodes find each other by."""

    def __init__(self, folder: Path, nodes: int = 1):
        self.folder = folder
        self.epmd: "Optional[subprocess.Popen[bytes]]" = None
        said = self._plan(nodes)
        self.epmd_port: int = said["epmd"]
        self.password: str = said["password"]
        self.nodes = [Node(f"room{place}@localhost", folder / f"node{place}", *ports) for place, ports in enumerate(said["ports"], 1)]

    def _plan(self, nodes: int) -> Dict[str, Any]:
        """Returns the ports and the password of this folder's broker, which are drawn where it is new."""
        path = self.folder / "broker.json"
        if not path.exists():
            self.folder.mkdir(parents=True, exist_ok=True)
            (self.folder / UNMADE).touch()
            said = {"epmd": free_port(), "password": secrets.token_hex(16), "ports": [[free_port(), free_port()] for _ in range(nodes)]}
            write_whole(path, json.dumps(said), 0o600)
        found: Dict[str, Any] = json.loads(path.read_text())
        return found

    def is_made(self) -> bool:
        """Returns whether the streams were made, so that something may have been said to this broker."""
        return not (self.folder / UNMADE).exists()

    def note_made(self) -> None:
        """Notes, on the disk, that the streams are made and are there again however the nodes end."""
        (self.folder / UNMADE).unlink(missing_ok=True)
        folder = os.open(self.folder, os.O_RDONLY | os.O_CLOEXEC)
        try:
            os.fsync(folder)
        finally:
            os.close(folder)

    def access(self) -> Access:
        """Returns where the nodes listen, and the password."""
        return Access(tuple((LOOPBACK, node.port) for node in self.nodes), "room", self.password)

    def start(self) -> None:
        """Starts the name service and all nodes, and ends once all are up; raises BrokerError. A broker that was ended before its streams
        were made begins from nothing."""
        if not is_installed():
            raise BrokerError("rabbitmq-server is not installed: apt-get install rabbitmq-server")
        is_new = not self.is_made()
        if is_new:
            self.forget()
        self.start_epmd()
        # New nodes join those that are up. Nodes that were one broker wait for each other before they are.
        for together in [[node] for node in self.nodes] if is_new else [self.nodes]:
            for node in together:
                self.start_node(node)
            for node in together:
                self.wait_for(node)

    def forget(self) -> None:
        """Takes away what the nodes keep."""
        for node in self.nodes:
            if node.data.exists():
                shutil.rmtree(node.data)

    def start_epmd(self) -> None:
        environment = {**os.environ, remnants.MARK: str(self.folder.parent), "ERL_EPMD_ADDRESS": LOOPBACK,
                       "ERL_EPMD_PORT": str(self.epmd_port)}
        self.epmd = subprocess.Popen([shutil.which("epmd") or "epmd"], env=environment, start_new_session=True, cwd="/",
                                     stdin=subprocess.DEVNULL, stdout=subprocess.DEVNULL, stderr=subprocess.DEVNULL)
        remnants.note(self.folder.parent, "epmd", self.epmd.pid)

    def start_node(self, node: Node) -> None:
        """Starts one node, which is up some seconds later."""
        node.folder.mkdir(parents=True, exist_ok=True)
        self._write_settings(node)
        output = open(node.folder / "output", "ab")
        try:
            node.process = subprocess.Popen([f"{SERVER}/../lib/{server_version()}/sbin/rabbitmq-server"], env=self._environment(node),
                                            cwd=node.folder, stdin=subprocess.DEVNULL, stdout=output, stderr=output, start_new_session=True)
        finally:
            output.close()
        remnants.note(self.folder.parent, node.name, node.process.pid)

    def _write_settings(self, node: Node) -> None:
        lines = [f"listeners.tcp.1 = {LOOPBACK}:{node.port}", "default_user = room", f"default_pass = {self.password}",
                 "disk_free_limit.absolute = 50MB", "log.console = false", "log.file.level = warning"]
        if len(self.nodes) > 1:
            lines += ["cluster_formation.peer_discovery_backend = classic_config", "cluster_partition_handling = pause_minority",
                      "cluster_formation.randomized_startup_delay_range.min = 0",
                      "cluster_formation.randomized_startup_delay_range.max = 1"]
            lines += [f"cluster_formation.classic_config.nodes.{place} = {other.name}" for place, other in enumerate(self.nodes, 1)]
        settings = node.folder / "rabbitmq.conf"
        settings.write_text("\n".join(lines) + "\n")
        settings.chmod(0o600)
        (node.folder / "plugins").write_text("[].\n")
        (node.folder / "env.conf").write_text("")
        cookie = node.folder / ".erlang.cookie"
        if not cookie.exists():
            cookie.write_text(self.password)
            cookie.chmod(0o400)

    def _environment(self, node: Node) -> Dict[str, str]:
        folder = str(node.folder)
        kept = {name: os.environ[name] for name in ("PATH", "LANG") if name in os.environ}
        return {**kept, remnants.MARK: str(self.folder.parent), "HOME": folder, "RABBITMQ_BASE": folder,
                "RABBITMQ_MNESIA_BASE": str(node.data), "RABBITMQ_LOG_BASE": f"{folder}/log",
                "RABBITMQ_PID_FILE": f"{folder}/pid", "RABBITMQ_NODENAME": node.name, "RABBITMQ_NODE_IP_ADDRESS": LOOPBACK,
                "RABBITMQ_NODE_PORT": str(node.port), "RABBITMQ_DIST_PORT": str(node.distance_port),
                "RABBITMQ_ENABLED_PLUGINS_FILE": f"{folder}/plugins", "RABBITMQ_CONFIG_FILE": f"{folder}/rabbitmq",
                "RABBITMQ_CONF_ENV_FILE": f"{folder}/env.conf", "ERL_EPMD_ADDRESS": LOOPBACK, "ERL_EPMD_PORT": str(self.epmd_port),
                "RABBITMQ_SERVER_START_ARGS": "-start_epmd false",
                "RUNNING_UNDER_SYSTEMD": "true",  # The node is one process, and no shell before it: who ends that ends the node.
                "RABBITMQ_SERVER_ADDITIONAL_ERL_ARGS": ERLANG_WORDS}

    def wait_for(self, node: Node) -> None:
        """Ends once a node takes connections; raises BrokerError."""
        until = time.monotonic() + PATIENCE
        while time.monotonic() < until:
            node.must_run()
            if answers(node.port):
                return
            time.sleep(0.1)
        raise BrokerError(f"{node.name} is not up after {PATIENCE:.0f} s; see {node.folder / 'output'}")

    def processes(self) -> List["subprocess.Popen[bytes]"]:
        """Returns the processes of all nodes."""
        return [node.process for node in self.nodes if node.process]

    def stop(self) -> None:
        """Ends all nodes, each with what it keeps on the disk, and the name service."""
        for process in self.processes():
            process.terminate()
        for process in self.processes():
            end_surely(process, 20.0)
        if self.epmd:
            self.epmd.terminate()
            end_surely(self.epmd, 5.0)


def answers(port: int) -> bool:
    """Returns whether a broker speaks AMQP on a port: it closes what is none with the name of its protocol."""
    try:
        with socket.create_connection((LOOPBACK, port), 1.0) as probe:
            probe.settimeout(2.0)
            probe.sendall(b"control room\n")
            return probe.recv(4) == b"AMQP"
    except OSError:
        return False


def server_version() -> str:
    """Returns the name of the folder of Debian's RabbitMQ; raises BrokerError."""
    found = sorted(path.name for path in Path(SERVER).parent.glob("lib/rabbitmq_server-*"))
    if not found:
        raise BrokerError(f"{SERVER} has no RabbitMQ")
    return found[-1]


def last_line(path: Path) -> str:
    """Returns the last line of a text that says something."""
    lines = [line for line in path.read_text(errors="replace").splitlines() if line.strip()] if path.exists() else []
    return lines[-1][:200] if lines else "nothing said"


def end_surely(process: "subprocess.Popen[bytes]", seconds: float) -> None:
    """Waits for a process that was told to end, and ends it by force after so many seconds."""
    try:
        process.wait(seconds)
    except subprocess.TimeoutExpired:
        process.kill()
        process.wait()
