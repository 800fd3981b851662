"""Histories in which one client makes many calls about one key, each of them allowed by what it was told long before.

repeats.py SHAPE TIMES writes one. The shapes: claim protection lists the pods of a namespace, as a claim there is deleting;
the same, and lets the claim go at an old version, which is refused; the binder completes a claim at an old version, which is
refused, and reads its volume; the binder reads the volume of a completed claim; it reads a claim that is gone, and releases
its volume at an old version; a node agent reads the claim of a pod. In those named "changed" a user labels an object between
two calls, so that versions differ. And "old watches": the binder watches the volumes from the version of its list, again and
again, after it was told a later one.

In the rest an older telling than the last allows the call. Claim protection lets a claim go by a list of pods, after which
others told a pod that uses it. The reclaimer deletes a volume under the key of another. It fails a volume whose data it could
not erase, and deletes one whose data it erased, where another volume over the same data was the last that it had read. The
binder reads a claim to which a volume refers by another UID, after it was told a volume that refers to the claim as it stands.

The answers are written from the rules of the store, and not by the program: an audit says Yes to each history.
"""
import json
import sys

BINDER = (5, "Binder")
PROTECTION = (6, "ClaimProtect")
AGENT = (7, "Agent")
OPS = (8, "Ops")
USER = (1, "User")
TIME = "2000-01-01T00:00:00Z"
CLAIM = "00000000-0000-4000-8000-ffffffffffff"
GUARDS = {"PersistentVolume": "kubernetes.io/pv-protection", "PersistentVolumeClaim": "kubernetes.io/pvc-protection"}


def line(value):
    return json.dumps(value, separators=(",", ":"), sort_keys=True)


def copied(value):
    return json.loads(json.dumps(value))


def version(thing):
    return int(thing["metadata"]["resourceVersion"])


def uid(thing):
    return thing["metadata"]["uid"]


def key(do, thing, **more):
    """A request by the key of the object."""
    meta = thing["metadata"]
    asked = {"do": do, "kind": thing["kind"], "name": meta["name"], **more}
    if "namespace" in meta:
        asked["namespace"] = meta["namespace"]
    return asked


class History:
    """The setup and the lines so far, the version of the store, and how often data were erased."""

    def __init__(self):
        self.lines = []
        self.version = 0
        self.setup = {"faults": [], "pools": []}
        self.erased = 0

    def text(self):
        return "\n".join([line({"setup": self.setup})] + self.lines + ["end\n"]).encode()

    def call(self, seat, asked, reply):
        self.lines.append(line({"ask": asked, "kind": seat[1], "reply": reply, "seat": seat[0], "told": True}))

    def written(self, thing):
        """The object with the next version."""
        self.version += 1
        thing = copied(thing)
        thing["metadata"]["resourceVersion"] = str(self.version)
        return thing

    def create(self, thing):
        made = self.written(thing)
        made["metadata"].update(creationTimestamp=TIME, uid=f"00000000-0000-8000-8000-{self.version:012x}")
        if thing["kind"] in GUARDS:
            made["metadata"]["finalizers"] = [GUARDS[thing["kind"]]]
        self.call(USER, {"do": "create", "object": thing}, {"done": made})
        return made

    def imported(self, thing):
        """The object as it stands where it is imported, before any call."""
        given = self.written(thing)
        given["metadata"]["uid"] = f"00000000-0000-4000-8000-{self.version:012x}"
        self.setup.setdefault("imports", []).append(copied(given))
        given["metadata"].update(creationTimestamp=TIME, finalizers=[GUARDS[thing["kind"]]])
        return given

    def update(self, seat, thing):
        done = self.written(thing)
        self.call(seat, {"do": "update", "object": thing, "version": version(thing)}, {"done": done})
        return done

    def conflict(self, seat, asked, current):
        """A write at an old version."""
        self.call(seat, asked, {"current": version(current), "refused": "Conflict"})

    def status(self, seat, thing, phase):
        done = self.written({**thing, "status": {"phase": phase}})
        self.call(seat, key("status", thing, phase=phase, version=version(thing)), {"done": done})
        return done

    def delete(self, thing):
        """The object, which has a finalizer, after its deletion."""
        done = self.written(thing)
        done["metadata"]["deletionTimestamp"] = TIME
        self.call(USER, key("delete", thing), {"done": done})
        return done

    def leave(self, thing):
        """The object, which is deleting, once claim protection has let it go."""
        self.items(PROTECTION, thing["kind"], [thing])
        self.items(PROTECTION, "Pod", [], namespace=thing["metadata"]["namespace"])
        dropped = copied(thing)
        del dropped["metadata"]["finalizers"]
        left = self.written(dropped)
        self.call(PROTECTION, {"do": "update", "object": dropped, "version": version(dropped)}, {"left": left})
        return left

    def label(self, thing, value):
        done = self.written(thing)
        done["metadata"]["labels"] = {"n": value}
        self.call(USER, key("edit", thing, setLabel={"key": "n", "value": value}), {"done": done})
        return done

    def items(self, seat, kind, things, **more):
        self.call(seat, {"do": "list", "kind": kind, **more}, {"items": things, "listed": self.version})

    def watch(self, seat, kind, start, changes):
        events = [{"change": change, "object": thing, "version": version(thing)} for change, thing in changes]
        self.call(seat, {"do": "watch", "from": start, "kind": kind}, {"events": events, "upto": self.version})

    def get(self, seat, thing):
        self.call(seat, key("get", thing), {"found": thing})

    def miss(self, seat, thing):
        self.call(seat, key("get", thing), {"refused": "NotFound"})

    def erase(self, fails):
        """The data of the volume, which are none, are erased, or it fails as planned."""
        self.erased += 1
        asked = {"do": "erase", "driver": "nfs", "id": "s:/x"}
        if fails:
            self.setup["faults"].append(self.erased)
            self.call(OPS, asked, {"planned": self.erased, "refused": "BackFault"})
        else:
            self.call(OPS, asked, {"erased": False})


def volume():
    spec = {"accessModes": ["ReadWriteOnce"], "capacity": {"storage": "5Gi"}, "nfs": {"path": "/x", "server": "s"},
            "persistentVolumeReclaimPolicy": "Retain", "storageClassName": "slow", "volumeMode": "Filesystem"}
    return {"apiVersion": "v1", "kind": "PersistentVolume", "metadata": {"name": "a"}, "spec": spec, "status": {"phase": "Pending"}}


def claim():
    spec = {"accessModes": ["ReadWriteOnce"], "resources": {"requests": {"storage": "5Gi"}}, "storageClassName": "slow",
            "volumeMode": "Filesystem"}
    meta = {"name": "c", "namespace": "default"}
    return {"apiVersion": "v1", "kind": "PersistentVolumeClaim", "metadata": meta, "spec": spec, "status": {"phase": "Pending"}}


def pod():
    spec = {"volumes": [{"persistentVolumeClaim": {"claimName": "c"}}]}
    return {"apiVersion": "v1", "kind": "Pod", "metadata": {"name": "p", "namespace": "default"}, "spec": spec}


def completed(history):
    """The binder binds a claim: its volume, the claim as the binder would complete it, and the claim that it completed."""
    bound, told = history.create(volume()), history.create(claim())
    history.items(BINDER, "PersistentVolume", [bound])
    history.items(BINDER, "PersistentVolumeClaim", [told])
    history.items(BINDER, "StorageClass", [])
    bound = history.status(BINDER, bound, "Available")
    bound["metadata"]["annotations"] = {"pv.kubernetes.io/bound-by-controller": "yes"}
    bound["spec"]["claimRef"] = {"name": "c", "namespace": "default", "uid": uid(told)}
    bound = history.status(BINDER, history.update(BINDER, bound), "Bound")
    told["metadata"]["annotations"] = {"pv.kubernetes.io/bind-completed": "yes", "pv.kubernetes.io/bound-by-controller": "yes"}
    told["spec"]["volumeName"] = "a"
    return bound, told, history.update(BINDER, told)


def pod_lists(history, times, changed):
    using, told = history.create(pod()), history.create(claim())
    history.items(PROTECTION, "PersistentVolumeClaim", [history.delete(told)])
    for number in range(times):
        if changed:
            using = history.label(using, str(number))
        history.items(PROTECTION, "Pod", [using], namespace="default")


def unused_claims(history, times, changed):
    told = history.delete(history.create(claim()))
    history.items(PROTECTION, "PersistentVolumeClaim", [told])
    newer, dropped = history.label(told, "first"), copied(told)
    del dropped["metadata"]["finalizers"]
    for number in range(times):
        if changed:
            newer = history.label(newer, str(number))
        history.items(PROTECTION, "Pod", [], namespace="default")
        history.conflict(PROTECTION, {"do": "update", "object": dropped, "version": version(dropped)}, newer)


def old_completions(history, times, changed):
    bound, old, done = completed(history)
    for number in range(times):
        if changed:
            bound = history.label(bound, str(number))
        history.conflict(BINDER, {"do": "update", "object": old, "version": version(old)}, done)
        history.get(BINDER, bound)


def volume_reads(history, times, changed):
    bound, _, _ = completed(history)
    for number in range(times):
        if changed:
            bound = history.label(bound, str(number))
        history.get(BINDER, bound)


def old_releases(history, times, changed):
    bound, _, done = completed(history)
    deleting = history.delete(done)
    left = history.leave(deleting)
    changes = [("MODIFIED", done), ("MODIFIED", deleting), ("DELETED", left)]
    history.watch(BINDER, "PersistentVolumeClaim", 2, changes)
    newer = history.label(bound, "first")
    for number in range(times):
        if changed:
            newer = history.label(newer, str(number))
        history.miss(BINDER, done)
        history.conflict(BINDER, key("status", bound, phase="Released", version=version(bound)), newer)


def claim_reads(history, times, changed):
    history.create({"apiVersion": "v1", "kind": "Node", "metadata": {"name": "n1"}})
    using, read = pod(), history.create(claim())
    using["spec"]["nodeName"] = "n1"
    using = history.create(using)
    history.call(AGENT, {"do": "take", "node": "n1"}, {"epoch": 1})
    history.items(AGENT, "Pod", [using])
    for number in range(times):
        if changed:
            read = history.label(read, str(number))
        history.get(AGENT, read)


def old_watches(history, times, changed):
    history.items(BINDER, "PersistentVolume", [])
    told = history.create(volume())
    for _ in range(times):
        history.watch(BINDER, "PersistentVolume", 0, [("ADDED", told)])


def older_lists(history, times, changed):
    told = history.delete(history.create(claim()))
    history.items(PROTECTION, "PersistentVolumeClaim", [told])
    newer, dropped = history.label(told, "first"), copied(told)
    del dropped["metadata"]["finalizers"]
    history.items(PROTECTION, "Pod", [], namespace="default")
    history.create({"apiVersion": "v1", "kind": "Node", "metadata": {"name": "n1"}})
    using = pod()
    using["spec"]["nodeName"] = "n1"
    using = history.create(using)
    for number in range(times):
        if changed:
            using = history.label(using, str(number))
        history.items(PROTECTION, "Pod", [using], namespace="default")
        history.conflict(PROTECTION, {"do": "update", "object": dropped, "version": version(dropped)}, newer)


def ended(history, name):
    """A volume of this name that has ended for a claim that is gone, and that goes with its data."""
    made = volume()
    made["metadata"]["name"] = name
    made["spec"].update(persistentVolumeReclaimPolicy="Delete", claimRef={"name": "c", "namespace": "default", "uid": CLAIM})
    made["status"]["phase"] = "Released"
    return history.imported(made)


def other_names(history, times, changed):
    told = ended(history, "a")
    history.items(OPS, "PersistentVolume", [told])
    history.get(OPS, told)
    history.erase(False)
    other = {**told, "metadata": {"name": "other"}}
    for number in range(times):
        if changed:
            told = history.label(told, str(number))
        history.get(OPS, told)
        history.call(OPS, key("delete", other, uid=uid(told)), {"refused": "NotFound"})


def over_same(history):
    """Two volumes over the same data, of which the second was read last."""
    first, second = ended(history, "a"), ended(history, "b")
    history.items(OPS, "PersistentVolume", [first, second])
    history.get(OPS, first)
    history.get(OPS, second)
    return first


def failed_erasures(history, times, changed):
    first = over_same(history)
    newer = history.label(first, "first")
    for number in range(times):
        if changed:
            newer = history.label(newer, str(number))
        history.erase(True)
        history.conflict(OPS, key("status", first, phase="Failed", version=version(first)), newer)


def erased_deletions(history, times, changed):
    first = over_same(history)
    deleting = history.delete(first)
    history.erase(False)
    for number in range(times):
        if changed:
            deleting = history.label(deleting, str(number))
        history.erase(True)
        history.call(OPS, key("delete", first, uid=uid(first)), {"done": deleting})


def other_volumes(history, times, changed):
    stands, told = history.imported(claim()), []
    for name, refers in (("a", CLAIM), ("b", uid(stands))):
        made = volume()
        made["metadata"]["name"] = name
        made["spec"]["claimRef"] = {"name": "c", "namespace": "default", "uid": refers}
        told.append(history.imported(made))
    history.items(BINDER, "PersistentVolumeClaim", [stands])
    history.items(BINDER, "PersistentVolume", told)
    for number in range(times):
        if changed:
            stands = history.label(stands, str(number))
        history.get(BINDER, stands)


CALLS = {
    "pod lists": pod_lists,
    "unused claims": unused_claims,
    "old completions": old_completions,
    "volume reads": volume_reads,
    "old releases": old_releases,
    "claim reads": claim_reads,
    "old watches": old_watches,
    "older lists": older_lists,
    "other names": other_names,
    "failed erasures": failed_erasures,
    "erased deletions": erased_deletions,
    "other volumes": other_volumes,
}
SHAPES = [name + more for name in CALLS for more in ("", ", changed") if (name, more) != ("old watches", ", changed")]


def repeated(shape, times):
    """The text of the history of this shape."""
    history = History()
    name, _, changed = shape.partition(", ")
    CALLS[name](history, times, changed != "")
    return history.text()


if __name__ == "__main__":
    sys.stdout.buffer.write(repeated(sys.argv[1], int(sys.argv[2])))
