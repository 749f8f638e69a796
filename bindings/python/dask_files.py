"""Audits files on a cluster of Dask: four worker processes over TCP, here on the loopback interface. It makes three nodes' logs
and audits them in this process, then on the cluster, and then on the cluster with a worker killed that cut a file and another
that audited a class. All reports are the same. A cluster of your own is `Client("tcp://scheduler:8786")`; its workers have to
see the files and `folder`, and to import `simplex_shards`."""
import os
import pathlib
import signal
import tempfile

from dask.distributed import Client, LocalCluster

from simplex_audit import Committees, Encoder, Vote
from simplex_shards import audit_files

PARTICIPANTS, VIEWS, CLASSES = 4, 200, 16


def log(node):
    """A node's log, in an order of its own: in each round a participant votes for two payloads."""
    stream = Encoder(64)
    for view in range(1, VIEWS + 1):
        votes = [(signer, 6) for signer in range(PARTICIPANTS)] + [(view % PARTICIPANTS, 7)]
        for signer, payload in votes[node:] + votes[:node]:
            vote = Vote("notarize", 3, view, view - 1, bytes([payload] * 32))
            stream.vote(vote, signer, bytes(64), lambda vote, signer, signature: True)
    return stream.encoded()


def map_on(client):
    """A map whose tasks run on a cluster. It runs those again whose workers are lost."""
    return lambda function, tasks: client.gather(client.map(function, list(tasks), pure=False))


class KillsOnce:
    """A function of tasks that kills the process of its first run before it returns."""

    def __init__(self, function, folder):
        self.function, self.marker = function, os.path.join(folder, f"{function.__name__} was killed")

    def __call__(self, task):
        result = self.function(task)
        try:
            open(self.marker, "xb").close()
        except FileExistsError:
            return result
        os.kill(os.getpid(), signal.SIGKILL)


def main():
    committees = Committees.every(64, PARTICIPANTS)
    with tempfile.TemporaryDirectory(ignore_cleanup_errors=True) as folder:
        paths = [pathlib.Path(folder, f"node{node}.log") for node in range(3)]
        for node, path in enumerate(paths):
            # the last log ends within a message
            path.write_bytes(log(node)[: -1 if node == 2 else None])
        alone = audit_files(committees, paths, CLASSES)
        how = {"n_workers": 4, "threads_per_worker": 1, "processes": True, "host": "127.0.0.1", "protocol": "tcp://"}
        with LocalCluster(dashboard_address=None, local_directory=folder, **how) as cluster, Client(cluster) as client:
            on_cluster = map_on(client)
            audited = audit_files(committees, paths, CLASSES, folder=folder, map=on_cluster)
            killed = audit_files(committees, paths, CLASSES, folder=folder,
                                 map=lambda function, tasks: on_cluster(KillsOnce(function, folder), tasks))
        report, faults = alone
        print(f"{report.read} messages of {len(paths)} files, {sum(it is not None for it in faults.values())} with a fault")
        print(f"{len(report.evidence)} lines of evidence")
        print(f"on four workers {'the same' if audited == alone else 'another report'}")
        deaths = len(list(pathlib.Path(folder).glob("* was killed")))
        print(f"with {deaths} workers killed {'the same' if killed == alone else 'another report'}")


if __name__ == "__main__":
    main()
