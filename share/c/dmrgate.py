"""The base station of dmrgate, frame by frame, for Python, over the shared library that ./install puts in place."""

import ctypes

# What a call answers, as dmrgate.h has it.
DONE, NO_STATION, AT_LIMIT, NO_MEMORY, BAD_SETTING, BAD_SLOT, NO_ROOM, NONE_RECEIVED = range(8)
REFUSALS = ("", "the station isn't open", "too many frames or datagrams", "out of memory", "a setting is out of its range",
            "a slot is neither 1 nor 2", "a datagram is too long", "all that was received is taken")
RECEIPT_LIMIT = 3044


class Handle(ctypes.Structure):
    _fields_ = [("at", ctypes.c_void_p)]


class Settings(ctypes.Structure):
    _fields_ = [("llid", ctypes.c_uint32), ("call_hang", ctypes.c_uint16), ("channel_hang", ctypes.c_uint16),
                ("colour", ctypes.c_uint8), ("queue", ctypes.c_uint8)]


class UplinkSlot(ctypes.Structure):
    _fields_ = [("heard", ctypes.c_bool), ("burst", ctypes.c_uint8 * 33)]


class DownlinkSlot(ctypes.Structure):
    _fields_ = [("sent", ctypes.c_bool), ("cach", ctypes.c_uint8 * 3), ("burst", ctypes.c_uint8 * 33)]


class Receipt(ctypes.Structure):
    _fields_ = [("source", ctypes.c_uint32), ("length", ctypes.c_uint16), ("slot", ctypes.c_uint8), ("kind", ctypes.c_uint8)]


class Counts(ctypes.Structure):
    _fields_ = [(name, ctypes.c_uint32)
                for name in ("frames", "repeated", "offered", "refused", "received", "delivered", "sent", "given_up")]


ARGUMENTS = {
    "open": [ctypes.POINTER(Handle), ctypes.POINTER(Settings)],
    "close": [ctypes.POINTER(Handle)],
    "offer": [ctypes.POINTER(Handle), ctypes.c_uint8, ctypes.c_bool, ctypes.c_bool, ctypes.c_char_p, ctypes.c_size_t],
    "exchange": [ctypes.POINTER(Handle), UplinkSlot * 2, DownlinkSlot * 2],
    "take_received": [ctypes.POINTER(Handle), ctypes.POINTER(Receipt), ctypes.c_uint8 * RECEIPT_LIMIT],
    "counts": [ctypes.POINTER(Handle), ctypes.POINTER(Counts)],
}


class Refused(Exception):
    """A call that was refused, and with which status."""

    def __init__(self, status):
        super().__init__(REFUSALS[status])
        self.status = status


class Station:
    """A station. Call close at its end, or use it in a with."""

    def __init__(self, library, llid=1, colour=1, call_hang=3, channel_hang=5, queue=9):
        self._library = ctypes.CDLL(library)
        for name, arguments in ARGUMENTS.items():
            call = getattr(self._library, f"dmr_station_{name}")
            call.argtypes, call.restype = arguments, None if name == "close" else ctypes.c_uint8
        self._handle, self._receipt, self._room = Handle(), Receipt(), (ctypes.c_uint8 * RECEIPT_LIMIT)()
        self._uplink, self._downlink = (UplinkSlot * 2)(), (DownlinkSlot * 2)()
        self._call("open", Settings(llid, call_hang, channel_hang, colour, queue))

    def _call(self, name, *arguments):
        status = getattr(self._library, f"dmr_station_{name}")(self._handle, *arguments)
        if status:
            raise Refused(status)

    def __enter__(self):
        return self

    def __exit__(self, *_):
        self.close()

    def close(self):
        """Frees the station. Each call but this one is refused then."""
        self._call("close")

    def offer(self, slot, octets, confirmed=False, full=False):
        """Offers a datagram, before the frame in which it is due."""
        self._call("offer", slot, confirmed, full, octets, len(octets))

    def exchange(self, first, second):
        """Takes None or 33 octets in each slot, and gives None or a CACH and a burst in each."""
        for slot, burst in zip(self._uplink, (first, second)):
            slot.heard = burst is not None
            slot.burst[:] = burst if slot.heard else bytes(33)
        self._call("exchange", self._uplink, self._downlink)
        return [(bytes(it.cach), bytes(it.burst)) if it.sent else None for it in self._downlink]

    def received(self):
        """What was received in the frame: slot, kind, source and octets of each."""
        try:
            while True:
                self._call("take_received", self._receipt, self._room)
                it = self._receipt
                yield it.slot, it.kind, it.source, bytes(self._room[:it.length])
        except Refused as refused:
            if refused.status != NONE_RECEIVED:
                raise

    def counts(self):
        """What the station has done so far."""
        counts = Counts()
        self._call("counts", counts)
        return counts
