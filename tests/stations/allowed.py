"""What a program was seen to do, beside what its unit for systemd lets it do.
    allowed.py TRACE UNIT STATE
TRACE is of strace -f -y. System calls must be in the unit's SystemCallFilter, as systemd-analyze lists its groups; families of sockets in
RestrictAddressFamilies, or netlink, by which the C library looks for addresses and does without. What is opened to be written, renamed,
made or taken away lies in the folder STATE. No memory is both written and run."""
import os
import re
import subprocess
import sys

trace, unit, state = sys.argv[1:]
words = dict(line.rstrip("\n").split("=", 1) for line in open(unit) if "=" in line and line[0] not in "#[")

groups, current = {}, []
listed = subprocess.run(["systemd-analyze", "syscall-filter", "--no-pager"], capture_output=True, text=True, check=True).stdout
for line in listed.splitlines():
    if line.startswith("@"):
        groups[line.strip()] = current = []
    elif line.startswith("#"):
        break  # calls that are in no group
    elif line.strip() and not line.strip().startswith("#"):
        current.append(line.strip())


def calls(name):
    return set().union(*map(calls, groups[name])) if name.startswith("@") else {name}


allowed = calls("@default").union(*map(calls, words["SystemCallFilter"].split()))
families = words["RestrictAddressFamilies"].split() + ["AF_NETLINK"]
changing = ("rename", "renameat", "renameat2", "mkdir", "mkdirat", "rmdir", "unlink", "unlinkat", "creat", "link", "linkat", "truncate")
wrong, seen = set(), 0
for line in open(trace):
    match = re.match(r"(?:\d+ +)?(\w+)\((.*)", line)
    if not match or match[1] == "execve":  # by systemd, in front of its filter
        continue
    call, rest = match.groups()
    seen += 1
    if call not in allowed:
        wrong.add("call " + call)
    if call == "socket" and rest.split(",")[0] not in families:
        wrong.add("family " + rest.split(",")[0])
    if call in changing or call in ("open", "openat") and re.search("O_WRONLY|O_RDWR|O_CREAT", rest):
        paths = (os.path.normpath(os.path.join(folder, name)) for folder, name in re.findall('(?:<([^>]*)>, )?"([^"]*)"', rest))
        wrong.update("%s of %s" % (call, path) for path in paths if not (path + "/").startswith((state + "/", "/proc/self/fd/")))
    if call in ("mprotect", "mmap") and "PROT_WRITE|PROT_EXEC" in rest:
        wrong.add("memory that is written and run")
if seen < 50:
    wrong.add("only %d calls were seen" % seen)
print("\n".join(sorted(wrong)), end="\n" if wrong else "")
sys.exit(1 if wrong else 0)
