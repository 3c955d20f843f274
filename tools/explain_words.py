"""Words for numbers, bytes, vectors and error codes."""

SHOWN_BYTES = 16

# SDM volume 3, 6.3.1 and 6.15.
VECTORS = {0: "#DE, divide error", 1: "#DB, debug", 2: "NMI", 3: "#BP, breakpoint", 4: "#OF, overflow",
           5: "#BR, bound range", 6: "#UD, invalid opcode", 7: "#NM, no device", 8: "#DF, double fault",
           9: "coprocessor overrun", 10: "#TS, invalid TSS", 11: "#NP, segment not present", 12: "#SS, stack fault",
           13: "#GP, general protection", 14: "#PF, page fault", 16: "#MF, x87 error", 17: "#AC, alignment check",
           18: "#MC, machine check", 19: "#XM, SIMD error", 20: "#VE, virtualization", 21: "#CP, control protection"}
SELECTOR_VECTORS, PAGE_FAULT = (10, 11, 12, 13), 14

POLICIES = {1: "write-once", 2: "append-only", 3: "no-write", 4: "write-log"}


def count_words(number, one, many=None):
    return f"{number} {one if number == 1 else many or one + 's'}"


def bytes_words(digits):
    size = len(digits) // 2
    cut = digits[:2 * SHOWN_BYTES] + ".." if size > SHOWN_BYTES else digits
    return f"{count_words(size, 'byte')}, {cut}"


def page_fault_words(code):
    """SDM volume 3, 4.7."""
    names = {0: "P", 1: "W/R", 2: "U/S", 3: "RSVD", 4: "I/D", 5: "PK", 6: "SS", 15: "SGX"}
    bits = [names.get(bit, f"bit {bit}") for bit in range(64) if code >> bit & 1]
    access = "a fetch" if code & 16 else "a write" if code & 2 else "a read"
    why = f"{'the translation forbids' if code & 1 else 'no translation for'} {access} at CPL {3 if code & 4 else 0}"
    return f"bits {' '.join(bits)}, {why}" if bits else f"no bits, {why}"


def selector_words(code):
    """SDM volume 3, 6.13."""
    if code == 0:
        return "no gate and no selector"
    where = f"the gate of vector {code >> 3}" if code & 2 else f"selector {code & 0xfffc:x}"
    return where + (", by an event of the outside" if code & 1 else "")


def error_words(vector, code):
    if code == "-":
        return "no error code" + (f": by INT {vector}" if vector in (*SELECTOR_VECTORS, PAGE_FAULT, 8, 17) else "")
    number = int(code, 16)
    if vector == PAGE_FAULT:
        return f"error code {code}: {page_fault_words(number)}"
    if vector in SELECTOR_VECTORS:
        return f"error code {code}: {selector_words(number)}"
    return f"error code {code}"


def vector_words(vector):
    if vector >= 32:
        return f"vector {vector}, an interrupt or INT {vector}"
    return f"vector {vector}, {VECTORS.get(vector, 'reserved')}"


def console_words(content):
    escapes = {10: "\\n", 13: "\\r", 9: "\\t", 34: '\\"', 92: "\\\\"}
    return "".join(escapes.get(it) or (chr(it) if 32 <= it < 127 else f"\\x{it:02x}") for it in content)


def policy_words(policy):
    return POLICIES.get(policy, f"policy {policy}, which isn't there")
