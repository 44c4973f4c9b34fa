"""apart.py IN OUT CRATES PATTERN: takes out of the code what `rt try` adds, and keeps functions marked so apart."""
import glob
import re
import sys

source, to, crates, pattern = sys.argv[1:5]

# The names of the functions that are marked, as CRATE::..::NAME.
marked = set()
for path in glob.glob(f"{crates}/*/src/*.rt"):
    text = open(path, encoding="utf-8").read()
    crate = path.split("/")[-3]
    for found in re.findall(r"#\[inline\(never\)\]\s*(?:#\[[^\]]*\]\s*)*(?:pub(?:\([a-z]+\))? )?fn (\w+)", text):
        marked.add((crate, found))
more = re.compile(pattern) if pattern else None


def is_apart(name):
    parts = [it for it in name.split("::") if not it.startswith("<")]
    return (parts[0], parts[-1]) in marked or (more and more.search(name))


with open(source) as old, open(to, "w") as new:
    for line in old:
        if re.search(r"llvm\.memset\.p0\.i64\(ptr %r\d+, i8 -86", line):
            continue
        if line.startswith("define "):
            name = re.search(r'@(?:"([^"]*)"|([\w.$]+))\(', line)
            if name and is_apart(name[1] or name[2]):
                line = re.sub(r" (#\d+)( \{)", r" noinline \1\2", line, count=1)
        elif line.startswith("attributes #0"):
            line = line.replace("sanitize_address", "").replace('"frame-pointer"="all" ', "")
        new.write(line)
