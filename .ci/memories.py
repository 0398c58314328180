"""The files that keep a node's memory, as the scripts beside this one make and read them: `swp.nv`, which is its bytes one after another, and
`swp.flash`, where they stand on flash pages (docs/FORMATS.md)."""

# how many bytes a memory has, and how many of them a sector of the flash
SIZE, SECTOR = 65536, 256
PAGE, PAGES = 512, 272


class Memory:
    """The file of this name and length: pages where it is as long as the flash, and the bytes themselves otherwise."""

    def __init__(self, name="swp.nv", length=SIZE):
        self.name, self.length = name, int(length)
        self.is_flash = self.length == PAGE * PAGES

    def made(self, begins):
        """The bytes of the file of a memory that begins so, with FF behind them."""
        content = begins + b"\xFF" * (SIZE - len(begins))
        if not self.is_flash:
            return content
        pages = b""
        for sector in range(SIZE // SECTOR):
            held = content[sector * SECTOR : (sector + 1) * SECTOR]
            if held != b"\xFF" * SECTOR:
                head = bytes([sector]) + (1).to_bytes(8, "big")
                page = head + bytes(0xFF - byte for byte in head) + held
                pages += page + b"\xFF" * (PAGE - len(page))
        return pages + b"\xFF" * (self.length - len(pages))

    def content(self, file):
        """What a memory holds by the bytes of its file; none where there is no file, or it isn't one of a memory."""
        if file is None or len(file) != self.length:
            return None
        if not self.is_flash:
            return file
        held = {}
        for start in range(0, self.length, PAGE):
            head, complement, held_bytes = file[start : start + 9], file[start + 9 : start + 18], file[start + 18 : start + 274]
            if file[start + 274 : start + PAGE] != b"\xFF" * (PAGE - 274):
                return None
            # of two pages of one version the first one counts
            if all(one + other == 0xFF for one, other in zip(head, complement)) and head[1:] > held.get(head[0], (b"",))[0]:
                held[head[0]] = (head[1:], held_bytes)
        return b"".join(held.get(sector, (b"", b"\xFF" * SECTOR))[1] for sector in range(SIZE // SECTOR))

    def holds(self, file, begins):
        """Whether the file is that of a memory that begins so, with FF behind."""
        return self.content(file) == begins + b"\xFF" * (SIZE - len(begins))
