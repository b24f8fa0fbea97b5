"""The sample of the edits on record that a run tries again. Who knows the commit can choose it again."""
import hashlib
import subprocess

LEAST, HUNDREDTHS = 20, 3


def commit_of(root):
    """Returns the hash of the commit that is checked out, or an empty text where there is none."""
    how = {"cwd": root, "capture_output": True, "text": True, "check": False}
    try:
        return subprocess.run(["git", "rev-parse", "--verify", "--quiet", "HEAD"], **how).stdout.strip()
    except OSError:
        return ""


def chosen(names, commit):
    """Returns those of these names, as CRATE/EDIT, that the commit chooses: 3 in 100 of them, but at least 20."""
    many = max(LEAST, -(-len(names) * HUNDREDTHS // 100))
    return sorted(names, key=lambda it: hashlib.sha256(f"{commit} {it}".encode()).hexdigest())[:many]
