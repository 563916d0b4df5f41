"""Captures every journal in examples/ and compares what tshark reads of it with the lines of the journal."""
import pathlib
import subprocess
import sys
import tempfile

FIELDS = ["frame.interface_name", "frame.protocols", "_ws.col.Info", "_ws.expert.message"]


def capture(program, journal, path):
    with open(path, "wb") as out:
        subprocess.run([program, str(journal)], stdout=out, check=True)


def packets(path):
    command = ["tshark", "-r", path, "-T", "fields", "-E", "separator=|"]
    for field in FIELDS:
        command += ["-e", field]
    read = subprocess.run(command, capture_output=True, text=True, check=True)
    return [dict(zip(FIELDS, line.split("|"))) for line in read.stdout.splitlines()]


def air_lines(journal):
    lines = [line.split() for line in journal.read_text().splitlines()]
    return [line for line in lines if line[0] == "air"]


def faults_of(journal, read):
    air = [packet for packet in read if packet["frame.interface_name"] == "air"]
    hosts = [packet for packet in read if packet["frame.interface_name"] != "air"]
    lines = air_lines(journal)
    if len(air) != len(lines):
        yield f"{len(lines)} packets on the air, and {len(air)} captured"
    for line, packet in zip(lines, air):
        is_damaged = line[4].startswith("e")
        said = packet["_ws.expert.message"] + packet["_ws.col.Info"]
        if not is_damaged and ("Malformed" in said or "Incorrect CRC" in said):
            yield f"{' '.join(line)}: {said}"
        if "btle" not in packet["frame.protocols"]:
            yield f"{' '.join(line)}: not read as a packet of the link layer"
        if "Unknown" in packet["_ws.col.Info"] and not is_damaged:
            yield f"{' '.join(line)}: {packet['_ws.col.Info']}"
    for packet in hosts:
        if "bthci_acl" in packet["frame.protocols"]:
            continue  # its data is not that of a layer that tshark knows
        said = packet["_ws.expert.message"] + packet["_ws.col.Info"]
        if "Malformed" in said or "Unknown" in said:
            yield f"{packet['frame.interface_name']}: {said}"


def main():
    program = sys.argv[1]
    failed = False
    for journal in sorted(pathlib.Path("examples").glob("*/journal")):
        with tempfile.NamedTemporaryFile(suffix=".pcapng") as file:
            capture(program, journal, file.name)
            read = packets(file.name)
        faults = list(faults_of(journal, read))
        print(f"{journal.parent.name}: {len(read)} packets, {len(faults)} faults")
        for fault in faults:
            print(f"  {fault}")
        failed = failed or bool(faults)
    return 1 if failed else 0


if __name__ == "__main__":
    sys.exit(main())
