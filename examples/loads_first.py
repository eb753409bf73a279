import re, sys
for block in sys.stdin.read().split("block ")[1:]:
    found = re.findall(r"priority (\d+).* held \S+ (\w+)", block)
    print(*(int(chain) + (opcode in ("load", "loadAI")) for chain, opcode in found))
