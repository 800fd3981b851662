#!/usr/bin/env python3
"""bench/script.py N [SHAPE]: a script of N volumes and N claims; or of the seed N.

SHAPE is one of
  pairs      the volumes, and then the claims, of one class (the default);
  drains     the same, with a drain after every eighth claim;
  deletions  the same, then a drain, and then every second claim is deleted;
  delayed    every second claim is of a class whose claims wait for their first consumer, and a pool could serve it.
  generated  the script that `pvbind gen` makes of the seed N, written here anew from the format;
  lives      the same, and then 20 workers have three lives each, in which they list all objects again.
Each script ends with the drain that every replay makes after the last line.

Capacities and requests are 1 to 16 gibibytes, drawn by the generator of linear congruences that the
product's own generator uses: x becomes (x * 6364136223846793005 + 1442695040888963407) modulo 2^64,
and a draw is (x / 2^33) modulo 16. The first x is 1.
"""
import json
import sys

GIBIBYTE = 1 << 30
SHAPES = ("pairs", "drains", "deletions", "delayed", "generated", "lives")
WORKERS = ("binder", "ops", "scheduler", "claims", "volumes")


def draws(state):
    while True:
        state = (state * 6364136223846793005 + 1442695040888963407) % (1 << 64)
        yield (state >> 33) % 16


def line(**members):
    print(json.dumps(members, separators=(",", ":")))


def create(kind, name, spec):
    line(do="create", object={"apiVersion": "v1", "kind": kind, "metadata": {"name": name}, "spec": spec})


def delayed_class():
    line(do="pool", name="p", provisioner="example.com/block", bytes="1Ti")
    line(do="create", object={
        "apiVersion": "storage.k8s.io/v1", "kind": "StorageClass", "metadata": {"name": "late"},
        "provisioner": "example.com/block", "volumeBindingMode": "WaitForFirstConsumer"})


def drawn(state, most):
    """The next state, and a draw below `most`."""
    state = (state * 6364136223846793005 + 1442695040888963407) % (1 << 64)
    return state, (state >> 33) % most


def storage_class(name, mode):
    line(do="create", object={
        "apiVersion": "storage.k8s.io/v1", "kind": "StorageClass", "metadata": {"name": name},
        "provisioner": "example.com/block", "volumeBindingMode": mode, "reclaimPolicy": "Delete"})


def claim(name, gibibytes, class_name):
    create("PersistentVolumeClaim", name, {
        "resources": {"requests": {"storage": f"{gibibytes}Gi"}}, "accessModes": ["ReadWriteOnce"],
        "storageClassName": class_name})


def generated(state):
    """The lines of a seed: the pool, two classes, four nodes, 256 volumes, 256 claims, 64 claims with their pods, a drain,
    and 64 deletions."""
    line(do="pool", name="p", provisioner="example.com/block", bytes="1Ti")
    storage_class("fast", "Immediate")
    storage_class("late", "WaitForFirstConsumer")
    for i in range(4):
        line(do="create", object={
            "apiVersion": "v1", "kind": "Node", "metadata": {"name": f"n{i}", "labels": {"zone": f"z{i % 2}"}}})
    for i in range(256):
        state, size = drawn(state, 16)
        state, many = drawn(state, 4)
        create("PersistentVolume", f"v{i}", {
            "capacity": {"storage": f"{1 + size}Gi"}, "storageClassName": "slow",
            "accessModes": ["ReadWriteOnce"] + ["ReadWriteMany"] * (many == 0),
            "persistentVolumeReclaimPolicy": "Retain", "nfs": {"server": "s", "path": "/x"}})
    for i in range(256):
        state, size = drawn(state, 16)
        state, kind = drawn(state, 4)
        claim(f"c{i}", 1 + size, "fast" if kind == 3 else "slow")
    for i in range(64):
        claim(f"l{i}", 1, "late")
        create("Pod", f"p{i}", {"volumes": [{"persistentVolumeClaim": {"claimName": f"l{i}"}}]})
    line(do="drain")
    for i in range(64):
        state, number = drawn(state, 256)
        line(do="delete", kind="PersistentVolumeClaim", name=f"c{number}")


def lives():
    """Lines after which each worker has had three lives, each of which lists all that it follows."""
    line(do="drain")
    for kind in WORKERS:
        for number in range(1, 5):
            for life in range(3):
                line(do="turn", actor=f"{kind}-{number}", calls=5)
                line(do="restart", actor=f"{kind}-{number}", after=5 * (life + 1))


def main(count, shape):
    if shape not in SHAPES:
        sys.exit(__doc__)
    if shape in ("generated", "lives"):
        generated(count)
        if shape == "lives":
            lives()
        return
    sizes = draws(1)
    if shape == "delayed":
        delayed_class()
    for i in range(count):
        amount = {"storage": str((1 + next(sizes)) * GIBIBYTE)}
        create("PersistentVolume", f"v{i}", {
            "capacity": amount, "accessModes": ["ReadWriteOnce"], "storageClassName": "slow",
            "nfs": {"server": "s", "path": "/x"}})
    for i in range(count):
        amount = {"storage": str((1 + next(sizes)) * GIBIBYTE)}
        late = shape == "delayed" and i % 2 == 1
        create("PersistentVolumeClaim", f"c{i}", {
            "resources": {"requests": amount}, "accessModes": ["ReadWriteOnce"],
            "storageClassName": "late" if late else "slow"})
        if shape == "drains" and i % 8 == 7:
            line(do="drain")
    if shape == "deletions":
        line(do="drain")
        for i in range(1, count, 2):
            line(do="delete", kind="PersistentVolumeClaim", name=f"c{i}")


if __name__ == "__main__":
    main(int(sys.argv[1]), sys.argv[2] if len(sys.argv) > 2 else SHAPES[0])
