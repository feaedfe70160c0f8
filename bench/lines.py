#!/usr/bin/env python3
"""Prints connections' lines for `gate_bench lines`: a desk of 512 roles and 4096 grants, and then lines of several kinds.

  lines.py [ROLES GRANTS] | ../crates/gate_bench/out/gate_bench lines

The roles form a binary tree, as in `gate_bench policy`; grants are of reading cells, to the roles in turn.
"""
import sys

MOST = 4000


def connection(name, lines):
    print(f"-- {name}")
    print("open root abc")
    print("activate officer")
    for line in lines:
        print(line)


def in_parts(name, lines):
    for start in range(0, len(lines), MOST):
        connection(name, lines[start : start + MOST])


def main(words):
    roles, grants = (int(word) for word in words) if words else (512, 4096)
    names = [f"r{k}" for k in range(roles - 1)]
    in_parts("roles", [f"addrole {name}" for name in names])
    in_parts("pairs", [f"inherit {names[(k - 1) // 2]} {names[k]}" for k in range(1, len(names))])
    in_parts("grants", [f"grant read c{k} {names[k % len(names)]}" for k in range(grants - 2)])
    connection("user", ["adduser ann abc", f"assign ann {names[0]}", "assign root r0"])
    turns = [f"grant read fresh {names[1]}", f"revoke read fresh {names[1]}"] * (MOST // 2)
    in_parts("grant and revoke", turns)
    in_parts("activate and drop", ["activate r0", "drop r0"] * (MOST // 2))
    in_parts("assign and deassign", ["assign ann r1", "deassign ann r1"] * (MOST // 2))
    in_parts("add and delete a user", ["adduser bob abc", "deluser bob"] * (MOST // 2))
    in_parts("add and delete a role", ["addrole fresh", "delrole fresh"] * (MOST // 2)) if roles < 512 else None
    in_parts("whoami of one role", ["whoami"] * MOST)
    in_parts("cells", ["cells"] * MOST)


if __name__ == "__main__":
    main(sys.argv[1:])
