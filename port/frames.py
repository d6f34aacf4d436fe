"""Full-duplex frames as they come by: the bodies of those whose check is right. It only looks on, and answers nothing."""

DLE, STX, ETX = 0x10, 0x02, 0x03


def crc(covered):
    register = 0
    for byte in covered:
        register ^= byte
        for _ in range(8):
            register = register >> 1 ^ (0xA001 if register & 1 else 0)
    return register


class Watcher:
    """Looks at the bytes of one direction."""

    def __init__(self, with_crc):
        self.with_crc = with_crc
        self.body = None  # where a frame is begun
        self.is_dle = False
        self.check = None  # where ETX was seen: the check bytes so far

    def bodies(self, data):
        """The bodies of the whole frames that end among these bytes."""
        for byte in data:
            body = self._byte(byte)
            if body is not None:
                yield body

    def _byte(self, byte):
        if self.check is not None:
            return self._check_byte(byte)
        if self.is_dle:
            self.is_dle = False
            self._pair(byte)
        elif byte == DLE:
            self.is_dle = True
        elif self.body is not None:
            self.body.append(byte)
        return None

    def _pair(self, code):
        if code == STX:
            self.body = bytearray()
        elif self.body is not None and code == DLE:
            self.body.append(DLE)
        elif self.body is not None and code == ETX:
            self.check = bytearray()
        elif code not in (0x06, 0x0F, 0x15):  # a response inside a frame leaves it
            self.body = None

    def _check_byte(self, byte):
        self.check.append(byte)
        if len(self.check) < (2 if self.with_crc else 1):
            return None
        body, check = bytes(self.body), bytes(self.check)
        self.body = self.check = None
        wanted = crc(body + bytes([ETX])).to_bytes(2, "little") if self.with_crc else bytes([-sum(body) % 256])
        return body if check == wanted and len(body) >= 6 else None


def tns_of(body):
    return body[4] | body[5] << 8


def is_reply(body):
    return body[2] & 0x40 != 0
