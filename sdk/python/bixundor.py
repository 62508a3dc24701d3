"""Providers for Bixundor in Python, with the standard library alone.

    from bixundor import provider, resource, Failed

    @resource("note", path="string! force_new", text="string", id="string computed")
    class Note:
        def create(self, want):          # returns the object's attributes
            ...
        def update(self, prior, want):   # returns the object's attributes
            ...
        def destroy(self, prior):        # returns nothing
            ...

    provider(Note)

An attribute is described by words: `string`, `number`, `bool` or `any`, with `!` behind it if the configuration has to set
it; `force_new` if a change of it replaces the object; `computed` if the provider sets it. `want` has every attribute, with
None for those that aren't set and for the computed ones that aren't known yet. `address()` returns the resource's address.

`@resource("note", idempotent=True, ..)` says that a request does no harm if it is made twice. `apply` then makes the requests of
the type again whose results it doesn't know, as after a crash, without `--in-flight`.

`raise Failed("message")` says that the request failed and nothing was done: the state doesn't change. `raise Failed("message",
left={..})` says which object is there now. Any other exception is a failure with which nothing was done.
"""
import contextvars
import json
import os
import sys
import threading
import traceback

KINDS = ("string", "number", "bool", "any")
current = contextvars.ContextVar("request")


class Failed(Exception):
    """A request failed. `left` has the attributes of the object that is there now; without it, nothing was done."""

    def __init__(self, message, left=None):
        super().__init__(message)
        self.message, self.left = message, left


def address():
    """Returns the address of the resource that a request is about, such as `note.a`."""
    return current.get()["address"]


def attribute(words):
    """Returns an attribute's schema, by its words."""
    kind, *rest = words.split()
    required = kind.endswith("!")
    kind = kind.rstrip("!")
    if kind not in KINDS or not set(rest) <= {"force_new", "computed"}:
        raise ValueError(f"not the words of an attribute: {words!r}")
    mode = "required" if required else "computed" if "computed" in rest else "optional"
    form = {"type": "dynamic" if kind == "any" else kind, mode: True}
    return {**form, "force_new": True} if "force_new" in rest else form


def resource(name, version=0, /, **attributes):
    """Makes a class the resource type of this name. `idempotent=True` says that a request can be made again after a crash."""
    idempotent = attributes.pop("idempotent") if isinstance(attributes.get("idempotent"), bool) else False

    def named(made):
        made.type_name = name
        made.schema = {
            "version": version,
            **({"idempotent": True} if idempotent else {}),
            "block": {"attributes": {key: attribute(words) for key, words in attributes.items()}},
        }
        return made

    return named


def whole(served, made):
    """Returns an object with None for each attribute that isn't given."""
    return {key: made.get(key) for key in served.schema["block"]["attributes"]} | made


def answer(served, request):
    """Returns the reply to a request, without its number."""
    current.set(request)
    op, prior, want = request["op"], request["prior"], request["object"]
    try:
        if op == "destroy":
            served.destroy(prior)
            return {"gone": True}
        made = served.create(want) if op == "create" else served.update(prior, want)
        if not isinstance(made, dict):
            raise TypeError(f"{op} returned no object but {made!r}")
        return {"object": whole(served, made)}
    except Failed as failed:
        return {"failed": failed.message, "object": failed.left and whole(served, failed.left)}
    except Exception as error:
        traceback.print_exc()
        return {"failed": f"{type(error).__name__}: {error}", "object": prior}


class Pipe:
    """The pipe of replies, which threads share. Each reply is one line."""

    def __init__(self, descriptor):
        self.descriptor, self.lock = descriptor, threading.Lock()

    def send(self, reply):
        line = (json.dumps(reply) + "\n").encode()
        with self.lock:
            while line:
                line = line[os.write(self.descriptor, line) :]


def serve(types, requests, replies):
    """Answers requests side by side until there are no more."""

    def work(request):
        try:
            replies.send({"id": request["id"], **answer(types[request["type"]], request)})
        except BrokenPipeError:
            pass

    workers = []
    for line in requests:
        worker = threading.Thread(target=work, args=(json.loads(line),))
        worker.start()
        workers = [it for it in workers if it.is_alive()] + [worker]
    for worker in workers:
        worker.join()


def provider(*classes):
    """Runs a provider of these types. With the word --schemas it prints their schemas instead."""
    if sys.argv[1:] == ["--schemas"]:
        schemas = {it.type_name: it.schema for it in classes}
        json.dump({"format_version": "1.0", "resource_schemas": schemas}, sys.stdout, indent=2)
        print()
        return
    # What a provider prints must not go to the pipe of replies.
    replies = Pipe(os.dup(1))
    os.dup2(2, 1)
    with open(0, encoding="utf-8", closefd=False) as requests:
        serve({it.type_name: it() for it in classes}, requests, replies)
