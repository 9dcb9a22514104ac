"""Elements of DER for all scripts, and for the comparisons with pyasn1 the program's answer to a file."""

import subprocess
import tempfile


def element(number, content):
    """The element of this tag and content, in its one spelling."""
    length = len(content)
    if length < 128:
        return bytes([number, length]) + content
    octets = length.to_bytes((length.bit_length() + 7) // 8, "big")
    return bytes([number, 128 + len(octets)]) + octets + content


def integer(value):
    """The INTEGER of a value that is not negative."""
    return element(2, value.to_bytes(value.bit_length() // 8 + 1, "big"))


class Judge:
    """Asks the program what a command says of payloads."""

    def __init__(self, program, command):
        self.program, self.command = program, command
        self.file = tempfile.NamedTemporaryFile()

    def told(self, payload):
        """The status and the output of the program."""
        self.file.seek(0)
        self.file.truncate()
        self.file.write(payload)
        self.file.flush()
        done = subprocess.run([self.program, self.command, self.file.name], capture_output=True, text=True, timeout=60)
        return done.returncode, done.stdout

    def expect(self, payload, status, output, what):
        found = self.told(payload)
        if found != (status, output):
            raise SystemExit(f"{what}: {found[0]} {found[1][:400]!r}, expected {status} {output[:400]!r}")

    def compare(self, rng, random_payload, lines_of):
        """Judges 160 payloads made at random and each of them with one other byte, 16 times. A payload is to be accepted exactly where
        `lines_of` gives its lines."""
        accepted = runs = 0
        for _ in range(160):
            whole = random_payload(rng)
            if lines_of(whole) is None:
                raise SystemExit(f"the payload that was made is refused by pyasn1: {whole.hex()}")
            payloads = [whole]
            for _ in range(16):
                changed = bytearray(whole)
                changed[rng.randrange(min(len(whole), rng.choice([80, len(whole)])))] = rng.randrange(256)
                payloads.append(bytes(changed))
            for payload in payloads:
                expected = lines_of(payload)
                runs += 1
                if expected is not None:
                    accepted += 1
                    self.expect(payload, 0, expected, payload.hex())
                    continue
                status, output = self.told(payload)
                if status != 1 or not output.startswith("refused "):
                    raise SystemExit(f"{payload.hex()}: {status} {output!r}, expected a refusal")
        print(f"{runs} payloads, {accepted} of them accepted")
