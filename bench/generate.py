"""Writes the files that the measurements run on: applications at the limits, and long traces of the motor.

python3 generate.py FOLDER writes into FOLDER
  motor.st             an emergency stop and a motor
  motor-32.trace       32 MiB of scans of it, motor-64.trace 64 MiB, and motor-2k.trace and motor-4k.trace so many thousand scans
  limits-half.st       an application of half the size of limits.st
  limits.st            1 MiB of text, 512 inputs, 512 outputs, 400 instances, 4,000 signals, 20,000 nodes
  wide.st              2,400 signals that are assigned, each of which demands 980 names; wide-signals.st has half as many signals, and
                       wide-parts.st half as many names
  wide-groups.st       the same where they demand 490 pairs joined by OR; wide-groups-half.st has half as many signals
  chain.st             512 inputs, 400 instances, 4,000 signals and 20,000 nodes, all of which the output S_End rests on, and
                       chain.trace ten scans of it; chain-half.st and chain-half.trace have half as many of each
"""
import os
import sys

sys.path.append(os.path.join(os.path.dirname(os.path.abspath(__file__)), "..", "tools"))
from plainly import plainly

MOTOR = """PROGRAM M
VAR_INPUT
  S_In : SAFEBOOL;
  Ack, Run : BOOL;
END_VAR
VAR_OUTPUT S_Motor : SAFEBOOL; END_VAR
VAR E : SF_EmergencyStop; END_VAR
E(Activate := TRUE, S_EStopIn := S_In, Reset := Ack);
S_Motor := E.S_EStopOut AND Run;
END_PROGRAM
"""
HEADER = "time S_In Ack Run\n"
MIB = 1 << 20


def scans(first, count):
    """The lines of `count` scans from the scan `first` on: every tenth scan the stop is pressed, and later acknowledged."""
    lines = []
    for k in range(first, first + count):
        part = k % 10
        lines.append(f"{10 * k % 4_000_000_000:08d} {int(part != 8)} {int(part == 3)} 1\n")
    return "".join(lines)


def write_trace(path, size=None, count=None):
    """A trace of `count` scans, or of as many as fit into `size` bytes."""
    with open(path, "w", encoding="ascii") as out:
        done = out.write(HEADER)
        line = len(scans(0, 1))
        count = count if count is not None else (size - done) // line
        for first in range(0, count, 50_000):
            out.write(scans(first, min(50_000, count - first)))
    return count


def write_limits(path, inputs, outputs, instances, locals_, nodes, size):
    """An application with these counts. Each instance has three outputs, each output is an AND, the nodes are shared out evenly, and
    a comment fills the text up to `size` bytes."""
    name = lambda letter, k: f"S_{letter}_{k:04d}_of_the_application_here"
    parts = ["PROGRAM Limits\nVAR_INPUT\n"]
    parts += [f"  {name('i', k)} : SAFEBOOL;\n" for k in range(inputs)]
    parts.append("END_VAR\nVAR_OUTPUT\n")
    parts += [f"  {name('o', k)} : SAFEBOOL;\n" for k in range(outputs)]
    parts.append("END_VAR\nVAR\n")
    parts += [f"  {name('x', k)} : SAFEBOOL;\n" for k in range(locals_)]
    parts += [f"  {name('e', k)} : SF_EmergencyStop;\n" for k in range(instances)]
    parts.append("END_VAR\n")
    # a call has one node, an assignment to a local one, and the outputs share the others
    for k in range(instances):
        parts.append(f"{name('e', k)}(Activate := TRUE, S_EStopIn := {name('i', k % inputs)});\n")
    for k in range(locals_):
        parts.append(f"{name('x', k)} := {name('e', k % instances)}.S_EStopOut;\n")
    rest = nodes - instances - locals_
    for k in range(outputs):
        share = rest // outputs + (k < rest % outputs)
        operands = [name("x", (k * 7 + j) % locals_) for j in range(share - 1)]
        parts.append(f"{name('o', k)} := {' AND '.join(operands)};\n")
    parts.append("END_PROGRAM\n")
    text = "".join(parts)
    fill = size - len(text)
    assert fill >= 3, f"{-fill} bytes too many"
    with open(path, "w", encoding="ascii") as out:
        out.write(text + "//" + "-" * (fill - 3) + "\n")


def write_wide(path, outputs, parts, width):
    """An application with five signals for each output, each the AND of the one before and an input. The first signal of each five
    reads a signal that demands so many parts: names, or, where the width is 2, pairs of names joined by OR."""
    inputs = [f"S_i{k:03d}" for k in range(512)]
    chains = [[*(f"x{k:03d}_{j}" for j in range(4)), f"S_o{k:03d}"] for k in range(outputs)]
    # the inputs, and signals that are read before they are assigned
    names = [*inputs, *(chain[j] for j in range(4) for chain in chains)]
    groups = [" OR ".join(names[k * width : (k + 1) * width]) for k in range(parts)]
    lines = ["PROGRAM Wide", "VAR_INPUT", *(f"  {name} : SAFEBOOL;" for name in inputs), "END_VAR", "VAR_OUTPUT"]
    lines += [*(f"  {chain[-1]} : SAFEBOOL;" for chain in chains), "END_VAR", "VAR", "  all : SAFEBOOL;"]
    lines += [*(f"  {name} : SAFEBOOL;" for chain in chains for name in chain[:-1]), "END_VAR"]
    lines.append("all := " + " AND ".join(f"({group})" for group in groups) + ";")
    for k, chain in enumerate(chains):
        for before, name in zip(["all", *chain], chain):
            lines.append(f"{name} := {before} AND {inputs[k % 512]};")
    with open(path, "w", encoding="ascii") as out:
        out.write("\n".join([*lines, "END_PROGRAM", ""]))


def write_chain(path, inputs, instances, signals, nodes):
    """An application with these counts, whose output S_End is the end of a chain of ANDs through all of it, and ten scans of it in
    which all inputs are TRUE."""
    names = [f"S_i{k:03d}" for k in range(inputs)]
    links = signals - inputs - 3 * instances - 1
    lines = ["PROGRAM Chain", "VAR_INPUT", f"  {', '.join(names)} : SAFEBOOL;", "END_VAR", "VAR_OUTPUT S_End : SAFEBOOL; END_VAR", "VAR"]
    lines += [*(f"  x{k:04d} : SAFEBOOL;" for k in range(links)), *(f"  e{k:03d} : SF_EmergencyStop;" for k in range(instances)), "END_VAR"]
    for k in range(instances):
        lines.append(f"e{k:03d}(Activate := TRUE, S_EStopIn := {names[k % inputs]}, S_StartReset := TRUE, S_AutoReset := TRUE);")
    # a call has one node, and so has the last assignment; an AND has one more than it has operands
    rest = nodes - instances - 1
    for k in range(links):
        count = rest // links + (k < rest % links) - 1
        before = [f"x{k - 1:04d}"] if k else []
        operands = [*before, f"e{k % instances:03d}.S_EStopOut", *(names[(7 * k + j) % inputs] for j in range(count))]
        lines.append(f"x{k:04d} := {' AND '.join(operands[:count])};")
    lines += [f"S_End := x{links - 1:04d};", "END_PROGRAM", ""]
    with open(f"{path}.st", "w", encoding="ascii") as out:
        out.write("\n".join(lines))
    with open(f"{path}.trace", "w", encoding="ascii") as out:
        out.write(" ".join(["time", *names]) + "\n")
        out.write("".join(" ".join([str(10 * k), *("1" for _ in names)]) + "\n" for k in range(10)))


def main(folder):
    os.makedirs(folder, exist_ok=True)
    at = lambda file: os.path.join(folder, file)
    with open(at("motor.st"), "w", encoding="ascii") as out:
        out.write(MOTOR)
    write_trace(at("motor-2k.trace"), count=2_000)
    write_trace(at("motor-4k.trace"), count=4_000)
    write_trace(at("motor-32.trace"), size=32 * MIB)
    write_trace(at("motor-64.trace"), size=64 * MIB)
    # 512 + 512 + locals + 3 * 400 signals
    write_limits(at("limits.st"), 512, 512, 400, 4_000 - 1_024 - 1_200, 20_000, MIB)
    write_limits(at("limits-half.st"), 256, 256, 200, 2_000 - 512 - 600, 10_000, MIB // 2)
    write_wide(at("wide.st"), 480, 980, 1)
    write_wide(at("wide-signals.st"), 240, 980, 1)
    write_wide(at("wide-parts.st"), 480, 490, 1)
    write_wide(at("wide-groups.st"), 480, 490, 2)
    write_wide(at("wide-groups-half.st"), 240, 490, 2)
    write_chain(at("chain"), 512, 400, 4_000, 20_000)
    write_chain(at("chain-half"), 256, 200, 2_000, 10_000)


if __name__ == "__main__":
    plainly(lambda words: None if len(words) != 1 or words[0].startswith("-") else main(words[0]) or 0, "bench/generate.py FOLDER")
