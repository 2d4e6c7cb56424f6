"""Cycles of objects with images in them, which the collector takes apart: in every kind of cycle,
and over memory of every kind of owner. No program may end by a signal, the memory is right for as
long as anyone asks, and nothing stays. Prints 'N passed, N failed, N skipped' last.

    cycles.py [COUNT]    how many cycles of each kind (1000)

A debug allocator (PYTHONMALLOC=debug), a debug build (python3-dbg) and valgrind
(PYTHONMALLOC=malloc) show more.
"""
import array
import copy
import ctypes
import gc
import io
import mmap
import sys
import threading
import weakref

from counting import check, end, numpy_or_none
from imgref import Image

SIDE = 9
PIXELS = SIDE * SIDE
VALUE = 7
WINDOW = (1, 1, 2, 2)
INNER = (1, 1, SIDE - 1, SIDE - 1)


class Frame(bytearray):
    """Memory that can be in a cycle."""


class Numbers(array.array):
    """The same of `array`."""


class Page(mmap.mmap):
    """The same of `mmap`."""


class Shown:
    """Memory by a method of Python's, which buffers are taken from since Python 3.12."""

    def __init__(self, memory):
        self.memory = memory

    def __buffer__(self, flags):
        return memoryview(self.memory)


class Ended(Image):
    """An image that reads its pixels when it ends."""

    wrong = 0

    def __del__(self):
        Ended.wrong += self.get(0, 0) != VALUE


def joined(memory):
    return memoryview(memory).cast("B", (SIDE, SIDE))


def mapped():
    page = Page(-1, mmap.PAGESIZE)
    page[:] = bytes([VALUE]) * mmap.PAGESIZE
    return page


def owners():
    """What an image may be over: functions that make an owner of new memory."""
    data = bytes([VALUE]) * PIXELS
    made = {
        "a bytearray": lambda: bytearray(data),
        "a class over bytearray": lambda: Frame(data),
        "bytes": lambda: bytes(bytearray(data)),
        "a memoryview": lambda: memoryview(bytearray(data)),
        "a part of a memoryview": lambda: memoryview(Frame(data + b"12"))[:-2],
        "a memoryview of an image": lambda: memoryview(Image(bytearray(data), SIDE, SIDE)).cast("B"),
        "an array": lambda: Numbers("B", data),
        "an array of ctypes": lambda: (ctypes.c_uint8 * PIXELS)(*data),
        "a file in memory": lambda: io.BytesIO(data).getbuffer(),
        "a mapped page": lambda: memoryview(mapped())[:PIXELS],
    }
    if sys.version_info >= (3, 12):
        made["a class with __buffer__"] = lambda: Shown(bytearray(data))
    if (numpy := numpy_or_none()) is not None:
        kind = type("Array", (numpy.ndarray,), {})
        made["NumPy's array"] = lambda: numpy.full(PIXELS, VALUE, "u1")
        made["a class over NumPy's array"] = lambda: numpy.full(PIXELS, VALUE, "u1").view(kind)
        made["an array over an image"] = lambda: numpy.asarray(Image(bytearray(data), SIDE, SIDE)).reshape(PIXELS)
        made["a memoryview of an array"] = lambda: memoryview(numpy.full(PIXELS, VALUE, "u1").view(kind))
    return made


def things(owner):
    """What holds the memory of an owner: images, and what else reads it."""
    image = Image(owner, SIDE, SIDE)
    return {
        "an image": lambda: image,
        "a window": lambda: image.window(WINDOW),
        "a window of a window": lambda: image.window(INNER).window(WINDOW),
        "a copy": lambda: copy.copy(image),
        "a copy with memory of its own": lambda: Image.copy_of(joined(owner)).window(WINDOW),
        "a plane": lambda: Image.planes_of(memoryview(owner).cast("B", (3, 3, 9)))[1],
        "an image over an image": lambda: Image(image),
        "an image over a memoryview of an image": lambda: Image(memoryview(image.window(WINDOW))),
        "a memoryview": lambda: memoryview(image.window(WINDOW)),
        "a class over Image": lambda: Ended(image),
    }


def is_right(thing):
    """Whether the memory has its pixels."""
    return (thing.get(0, 0) if isinstance(thing, Image) else thing[0, 0]) == VALUE


# ---- the kinds of cycles: each takes a thing, and what else the cycle shall have


def in_a_list(thing, *more):
    made = [thing, *more]
    made.append(made)


def in_a_list_at_its_end(thing, *more):
    made = []
    made += [made, *more, thing]


def in_a_dict(thing, *more):
    made = {"thing": thing, "more": more}
    made["made"] = made


def in_an_object(thing, *more):
    class Held:
        pass

    made = Held()
    made.thing, made.more, made.kind = thing, more, Held


def with_a_bound_method(thing, *more):
    class Held:
        def __init__(self):
            self.thing, self.more, self.call = thing, more, self.told

        def told(self):
            return self.thing

    Held().call()


def with_a_method_of_the_image(thing, *more):
    made = [*more]
    made += [made, thing, thing.tobytes]


def with_an_exception(thing, *more):
    try:
        thing.window((0, 0, 99, 99)) if isinstance(thing, Image) else thing[0, 99]
    except (ValueError, IndexError) as why:
        kept = why  # (the function's frame has it, and it has the frame)
    return kept.__traceback__ is None


def with_a_closure(thing, *more):
    def call():
        return call, thing, more

    call()


def in_a_generator(thing, *more):
    """It is suspended, and reads the memory when it ends."""

    def run():
        try:
            yield me, more
        finally:
            Ended.wrong += not is_right(thing)

    me = []
    me.append(run())
    next(me[0])


def with_a_del(thing, *more):
    class Held:
        def __del__(self):
            Ended.wrong += not is_right(self.thing)

    made = Held()
    made.thing, made.more, made.me = thing, more, made


def with_weak_references(thing, *more):
    """The callbacks run when the collector takes the cycle apart."""
    told = []
    made = [thing, *more]
    made += [made, *(weakref.ref(it, told.append) for it in (thing, *more) if type(it).__weakrefoffset__)]
    kept.append(weakref.ref(thing, lambda gone: kept.clear() if len(kept) > 10 else None))


kept = []
KINDS = (
    in_a_list,
    in_a_list_at_its_end,
    in_a_dict,
    in_an_object,
    with_a_bound_method,
    with_a_method_of_the_image,
    with_an_exception,
    with_a_closure,
    in_a_generator,
    with_a_del,
    with_weak_references,
)


def of_kinds(count):
    """Each kind of cycle with each thing, over a bytearray: all that is made is gone after it."""
    for kind in KINDS:
        made_all = []
        for turn in range(count):
            made = things(Frame(bytes([VALUE]) * PIXELS))
            for make in [*made.values()][turn % 3 :: 3]:
                thing = make()
                made_all.append(weakref.ref(thing))
                kind(thing)
            del make, made, thing
        gc.collect()
        check(f"{count} cycles {kind.__name__.replace('_', ' ')}", made_all and not any(it() is not None for it in made_all) and not Ended.wrong)


def of_owners(count):
    """Each owner with each thing, in cycles that the owner is in: its memory stays for as long as
    the thing."""
    for name, make_owner in owners().items():
        for turn in range(count):
            owner = make_owner()
            for label, make in [*things(owner).items()][turn % 4 :: 4]:
                thing = make()
                KINDS[turn % len(KINDS)](thing, owner)
                if turn % 5 == 0 and hasattr(owner, "__dict__"):
                    owner.thing = thing
            del owner, thing, make
        gc.collect()
        check(f"{count} cycles over {name}", not Ended.wrong)


def of_the_freed():
    """A cycle through the owner is freed, where the owner keeps its memory until it is."""
    made = owners()
    for name in ("a class over bytearray", "an array", "a class over NumPy's array"):
        if name not in made:
            continue
        owner = made[name]()
        owner.image = Image(owner, SIDE, SIDE)
        owner.parts = [owner.image.window(INNER), memoryview(owner.image), Image(memoryview(owner)[:10], 2, 5)]
        gone = weakref.ref(owner)
        del owner
        gc.collect()
        check(f"a cycle through {name} is freed", gone() is None)
    frame = bytearray(PIXELS)
    for it in (frame, memoryview(frame)):
        image = Image(it, SIDE, SIDE)
        in_a_list(image, image.window(INNER), memoryview(image))
    view = it
    del image, it
    gc.collect()
    view.release()
    frame.append(1)
    check("after its cycles memory may be resized", len(frame) == PIXELS + 1)


def of_chains(length):
    """Images over images over images, and so on: the end of the last one ends all, also on a small
    stack."""
    before = threading.stack_size(1 << 18)
    work = threading.Thread(target=of_chains_here, args=(length,))
    work.start()
    work.join()
    threading.stack_size(before)


def of_chains_here(length):
    numpy = numpy_or_none()
    image = Image(bytearray([VALUE]) * PIXELS, SIDE, SIDE)
    for _ in range(length):
        image = Image(image)
    check("a long chain of images", is_right(image))
    for _ in range(length if numpy else 0):
        image = Image(numpy.asarray(image))
    check("a long chain of images and arrays", is_right(image))
    in_a_list(image)
    del image
    gc.collect()
    check("their end", True)


def of_threads(count):
    """Threads that make cycles, while others run the collector and read."""
    wrong, owner = [], bytearray([VALUE]) * PIXELS
    shared = Image(owner, SIDE, SIDE)

    def work(at):
        try:
            for turn in range(count):
                thing = [*things(owner).values()][(at + turn) % 10]()
                KINDS[(at + turn) % len(KINDS)](thing, shared)
                if not is_right(shared.window(WINDOW)) or shared.count(shared.whole, VALUE) != PIXELS:
                    wrong.append(turn)
                if turn % 50 == 0:
                    gc.collect()
        except Exception as why:  # (shown below)
            wrong.append(why)

    threads = [threading.Thread(target=work, args=(at,)) for at in range(4)]
    for it in threads:
        it.start()
    for it in threads:
        it.join()
    check(f"threads that make cycles while the collector runs {wrong[:3] or ''}", not wrong and not Ended.wrong)


def all_of(count):
    before = gc.get_threshold()
    # (what is there already is looked at no more, so that a collection takes microseconds)
    gc.collect()
    gc.freeze()
    gc.set_threshold(1)
    try:
        of_kinds(count)
        of_owners(max(count // 4, 1))
        of_the_freed()
        of_threads(max(count // 4, 1))
    finally:
        gc.set_threshold(*before)
        gc.unfreeze()
    of_chains(100 * count)


if __name__ == "__main__":
    all_of(int(sys.argv[1]) if len(sys.argv) > 1 else 1000)
    end()
