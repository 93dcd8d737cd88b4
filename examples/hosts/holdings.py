"""What a guest program holds, from Python: its blocks of DOS memory, its handles and pages of expanded memory, and what
the memory checker finds when it ends. (`holdings.c` does the same in C.)

The guest keeps 512 bytes, allocates a block of five paragraphs and two pages of expanded memory, writes "Hi" to the
first page through window 0, and ends without freeing the pages. The host stops it before it ends, lists what it has,
and runs it to its end under the memory checker.
"""
from mezguld import Event, FindingKind, Machine, assemble

GUEST = """MOV SP,200h
MOV BX,20h
MOV AH,4Ah
INT 21h
MOV BX,5
MOV AH,48h
INT 21h
MOV BX,2
MOV AH,43h
INT 67h
MOV BX,0
MOV AX,4400h
INT 67h
MOV AX,0E000h
MOV ES,AX
ES MOV WORD [0],6948h
MOV AX,4C00h
INT 21h
"""


def main() -> None:
    with Machine(ems_pages=4, xms_kib=0) as machine:
        machine.add("GUEST.COM", assemble(GUEST))
        machine.load("GUEST.COM")
        machine.run_to(1000, [Event.at_function(0x21, 0x4C)])
        for block in machine.blocks():
            print(f"block {block.segment + 1:04X}: owner {block.owner:04X}, {block.size} paragraphs")
        expanded = machine.expanded()
        for handle in expanded.handles:
            for page in range(handle.pages):
                data = machine.read_page(handle.number, page, 0, 2)
                print(f"handle {handle.number}, page {page}: {data[0]:02X} {data[1]:02X}")
        for number, window in enumerate(expanded.windows):
            if window is not None:
                print(f"window {number}: handle {window.handle}, page {window.page}")
        machine.check(1000)
        for found in machine.findings():
            print(f"{'error' if found.is_error else 'note'} of process {found.process:04X}: ", end="")
            if found.kind is FindingKind.HANDLE_KEPT:
                print(f"{found.details.pages} pages of handle {found.details.handle} are left")
            elif found.kind is FindingKind.WINDOW_KEPT:
                print(f"window {found.details.window} is left mapped")
            else:
                print(found.line)


if __name__ == "__main__":
    main()
