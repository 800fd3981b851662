"""Scripts and histories that the test of the page makes: a large script, scripts with a known answer to why, a history of
many entries, and histories for rules and setups that no example has."""
import json


def line(**members):
    return json.dumps(members, separators=(",", ":")) + "\n"


def volume(name, size="5Gi", storage_class="slow", modes=("ReadWriteOnce",), **spec):
    return {"apiVersion": "v1", "kind": "PersistentVolume", "metadata": {"name": name},
            "spec": {"capacity": {"storage": size}, "accessModes": list(modes), "storageClassName": storage_class,
                     "nfs": {"server": "s", "path": "/" + name}, **spec}}


def claim(name, size="5Gi", storage_class="slow", modes=("ReadWriteOnce",), **spec):
    return {"apiVersion": "v1", "kind": "PersistentVolumeClaim", "metadata": {"name": name},
            "spec": {"resources": {"requests": {"storage": size}}, "accessModes": list(modes), "storageClassName": storage_class, **spec}}


def pod(name, *claims, **spec):
    return {"apiVersion": "v1", "kind": "Pod", "metadata": {"name": name},
            "spec": {**spec, "volumes": [{"name": "d", "persistentVolumeClaim": {"claimName": c}} for c in claims]}}


def node(name, **labels):
    return {"apiVersion": "v1", "kind": "Node", "metadata": {"name": name, **({"labels": labels} if labels else {})}}


def storage_class(name, provisioner="example.com/block", mode="Immediate"):
    return {"apiVersion": "storage.k8s.io/v1", "kind": "StorageClass", "metadata": {"name": name}, "provisioner": provisioner, "volumeBindingMode": mode}


def create(thing):
    return line(do="create", object=thing)


def large_script(pairs=210, pods=40):
    """Volumes, claims and pods, three drains and deletions between them: a history of some 5 MB."""
    text = line(do="pool", name="p", provisioner="example.com/block", bytes="400Gi") + create(storage_class("fast"))
    text += create(node("n1", zone="a")) + create(node("n2", zone="b"))
    for i in range(pairs):
        text += create(volume(f"v{i}", f"{1 + i % 9}Gi")) + create(claim(f"c{i}", f"{1 + i * 7 % 9}Gi", "fast" if i % 5 == 0 else "slow"))
    text += line(do="drain")
    for i in range(pods):
        text += create(pod(f"p{i}", f"c{i}", nodeName=f"n{1 + i % 2}"))
    text += line(do="drain")
    for i in range(0, pairs, 3):
        text += line(do="delete", kind="PersistentVolumeClaim", name=f"c{i}")
    for i in range(0, pods, 2):
        text += line(do="delete", kind="Pod", namespace="default", name=f"p{i}")
    return text


def pending_script():
    """A claim that each volume misses for another reason."""
    things = [volume("small", "1Gi"), volume("typo", storage_class="slwo"), volume("block", volumeMode="Block"), volume("many", modes=("ReadOnlyMany",)),
              {**volume("label"), "metadata": {"name": "label", "labels": {"tier": "b"}}}, volume("taken", claimRef={"namespace": "default", "name": "other"}),
              claim("c", selector={"matchLabels": {"tier": "a"}})]
    return "".join(create(t) for t in things)


PENDING_WORDS = {"volume small": "is too small", "volume typo": "has another class: slwo", "volume block": "has volume mode Block",
                 "volume many": "lacks access mode ReadWriteOnce", "volume label": "has labels that the claim’s selector does not select",
                 "volume taken": "has labels that"}


def causes_script():
    """A claim that 40 volumes do not serve for a few causes, and one that was of a claim of its name."""
    things = [volume("class-%d" % n, storage_class="other") for n in range(23)] + [volume("small-%d" % n, "1Gi") for n in range(17)]
    again = volume("again", claimRef={"namespace": "default", "name": "c", "uid": "33333333-3333-4333-8333-333333333333"})
    again["metadata"].update(uid="44444444-4444-4444-8444-444444444444", resourceVersion="7")
    again["status"] = {"phase": "Released"}
    return line(do="import", object=again) + "".join(create(t) for t in [*things, claim("c")])


def staying_script():
    """Objects that are to go and stay, and pods without a node or a mount."""
    things = [node("n1"), volume("a"), claim("c"), pod("p", "c", nodeName="n1"), pod("lone", "missing"), pod("stuck", "late", nodeName="n1"),
              claim("late", storage_class="none"), {**volume("kept"), "metadata": {"name": "kept", "finalizers": ["example.com/keep"]}}]
    text = "".join(create(t) for t in things) + line(do="drain")
    text += line(do="delete", kind="PersistentVolumeClaim", name="c") + line(do="delete", kind="PersistentVolume", name="kept")
    return text + line(do="delete", kind="PersistentVolume", name="a")


STAYING_WORDS = {"claim c": "It stays while a pod on a node uses it.", "pod lone": "A claim that it names is not there, or is to go.",
                 "pod stuck": "A node mounts a pod only where each claim is ready.", "claim late": "no StorageClass none is there to provision one",
                 "volume a": "It stays while it is Bound.", "volume kept": "whoever put it there takes it away"}


def uid(number):
    return "00000000-0000-8000-8000-" + format(number, "012x")


def entry(seat, kind, ask, reply, told=True):
    return json.dumps({"ask": ask, "kind": kind, "reply": reply, "seat": seat, "told": told}, separators=(",", ":"), sort_keys=True) + "\n"


def stored(thing, number, version):
    """The object as the store keeps it."""
    kept = json.loads(json.dumps(thing))
    kept["metadata"].update(uid=uid(number), resourceVersion=str(version), creationTimestamp="2000-01-01T00:00:00Z")
    guard = {"PersistentVolume": "kubernetes.io/pv-protection", "PersistentVolumeClaim": "kubernetes.io/pvc-protection"}.get(thing["kind"])
    if guard:
        kept["metadata"]["finalizers"] = [guard]
        kept["status"] = {"phase": "Pending"}
        kept["spec"].setdefault("volumeMode", "Filesystem")
    if thing["kind"] in ("PersistentVolumeClaim", "Pod"):
        kept["metadata"]["namespace"] = "default"
    return kept


def default_class_history(classes_told):
    """A binder gives a claim without a class the default one; `classes_told` says whether it heard the list of classes."""
    marked = storage_class("fast")
    marked["metadata"]["annotations"] = {"storageclass.kubernetes.io/is-default-class": "true"}
    bare = claim("c")
    del bare["spec"]["storageClassName"]
    first, second = stored(bare, 1, 1), stored(marked, 2, 2)
    changed = json.loads(json.dumps(first))
    changed["spec"]["storageClassName"] = "fast"
    written = json.loads(json.dumps(changed))
    written["metadata"]["resourceVersion"] = "3"
    text = '{"setup":{"faults":[],"pools":[]}}\n'
    text += entry(1, "User", {"do": "create", "object": bare}, {"done": first}) + entry(1, "User", {"do": "create", "object": marked}, {"done": second})
    for kind, items in (("PersistentVolume", []), ("PersistentVolumeClaim", [first]), ("StorageClass", [second])):
        text += entry(5, "Binder", {"do": "list", "kind": kind}, {"items": items, "listed": 2}, classes_told or kind != "StorageClass")
    return text + entry(5, "Binder", {"do": "update", "object": changed, "version": 1}, {"done": written}) + "end\n"


def imported_history():
    """A setup with imports and no entry, and the objects that it makes."""
    ids = ["33333333-3333-4333-8333-333333333333", "11111111-1111-4111-8111-111111111111", "22222222-2222-4222-8222-222222222222"]
    bound = volume("a", claimRef={"name": "c", "namespace": "default", "uid": ids[1]})
    mark = {"pv.kubernetes.io/bind-completed": "yes"}
    given = [bound, claim("c", volumeName="a"), claim("d", volumeName="gone")]
    for number, thing in enumerate(given):
        thing["metadata"].update(uid=ids[number], resourceVersion=str(40 + number))
        thing["status"] = {"phase": "Bound"}
        if number:
            thing["metadata"].update(namespace="default", annotations=mark)
    made = json.loads(json.dumps(given))
    for thing in made:
        thing["metadata"]["creationTimestamp"] = "2000-01-01T00:00:00Z"
        thing["metadata"]["finalizers"] = ["kubernetes.io/pv-protection" if thing["kind"] == "PersistentVolume" else "kubernetes.io/pvc-protection"]
    made[2]["status"] = {"phase": "Lost"}
    lines = [json.dumps(thing, separators=(",", ":"), sort_keys=True) for thing in made]
    setup = json.dumps({"setup": {"faults": [], "imports": given, "pools": []}}, separators=(",", ":"), sort_keys=True)
    return "\n".join([setup, "end", "objects", *lines, "summary", "writes 42", "objects 3", ""])


def long_history(path, entries, size):
    """A history of so many entries and about so many bytes: users write labels, and twenty seats follow them. Some watches
    bring many objects, as after a pause. No world gave these answers one by one; the page reads them all the same."""
    volumes = [stored(volume(f"v{i}"), i + 1, i + 1) for i in range(200)]
    version, seats = 0, list(range(5, 25))
    pad = max(0, size // entries - 640)
    with open(path, "w", encoding="utf-8") as out:
        out.write('{"setup":{"faults":[],"pools":[]}}\n')
        for i, thing in enumerate(volumes):
            version += 1
            out.write(entry(1, "User", {"do": "create", "object": volume(f"v{i}")}, {"done": thing}))
        for seat in seats:
            out.write(entry(seat, "Binder", {"do": "list", "kind": "PersistentVolume"}, {"items": volumes, "listed": version}))
        made = len(volumes) + len(seats)
        while made < entries:
            i = made % len(volumes)
            thing = volumes[i]
            version += 1
            thing["metadata"]["labels"] = {"turn": str(version), "text": "x" * pad}
            thing["metadata"]["resourceVersion"] = str(version)
            ask = {"do": "edit", "kind": "PersistentVolume", "name": f"v{i}", "setLabel": {"key": "turn", "value": str(version)}}
            out.write(entry(1, "User", ask, {"done": thing}))
            made += 1
            events = [{"change": "MODIFIED", "object": thing, "version": version}]
            for seat in seats[:min(len(seats), entries - made)]:
                out.write(entry(seat, "Binder", {"do": "watch", "from": version - 1, "kind": "PersistentVolume"}, {"events": events, "upto": version}))
                made += 1
        out.write("end\n")
