"""What a recorder leaves: the lines, and what the program that reads them must print."""
import collections
import os
import subprocess


def counts(lines):
    """What the program prints where nothing differs. A line begins with its letter, its row's number and its row's name."""
    rows = collections.Counter(line[2:17] for line in lines)
    letters = collections.Counter(line[0] for line in lines)
    said = ["%s %d cases, 0 differ\n" % (row[3:], number) for row, number in sorted(rows.items())]
    return said + ["Q %d cases, 0 differ\n" % letters["Q"], "H %d cases, 0 differ\n" % letters["H"]]


def leave(folder, lines):
    for name, content in [("stdin", lines), ("stdout", counts(lines))]:
        with open(os.path.join(folder, name), "w") as out:
            out.writelines(content)
    version = subprocess.run(["qemu-loongarch64", "--version"], text=True, stdout=subprocess.PIPE, check=True).stdout
    print(version.splitlines()[0])
    print("".join(counts(lines)[-2:]), end="")
