"""Code that uses a library wrongly and must not compile: a copy of the library with that code in it is refused before any
proof."""

import shutil
import subprocess
from pathlib import Path

from support.harness import shown

PROJECT = Path(__file__).parent.parent.parent

CLOSE = """        BatchSender::close(self, rt, end)
"""

SEND_AFTER_CLOSE = """        let closed = BatchSender::close(self, rt, end);
        self.is_ahead();
        closed
"""

SENDS = """impl<T: Drop> BatchSender<T> {
"""

SEND_BEHIND_CLOSE = """impl<T: Drop> BatchSender<T> {
    pub fn close_and_send<R: Wait>(mut self, rt: &R, end: End, item: T) {
        let _ = self.close(rt, end);
        let _ = self.send(rt, item);
    }

"""

RECEIVES = """impl<T: Drop> BatchReceiver<T> {
"""

RECEIVE_BEHIND_DRAIN = """impl<T: Drop> BatchReceiver<T> {
    pub fn drain_and_recv<R: Wait>(mut self, rt: &R) -> Next<T> {
        let _ = self.drain(rt);
        self.recv(rt)
    }

"""

MEETS = """        met: meet(sender, receiver),
    }
}
"""

MEET_OPEN = """        met: meet(sender, receiver),
    }
}

pub fn meet_open<T>(sender: crate::BatchSender<T>, receiver: EndedBatch<T>) {
    let _ = meet_batches(sender, receiver);
}
"""

MISUSES = [
    (
        "a sender is used after its close",
        "prolly_link",
        "src/batch/sender.rt",
        (CLOSE, SEND_AFTER_CLOSE),
        "error[borrow-e0382]: borrow of moved value: `self`",
    ),
    (
        "an item is sent behind the close",
        "prolly_link",
        "src/batch/sender.rt",
        (SENDS, SEND_BEHIND_CLOSE),
        "error[borrow-e0382]: borrow of moved value: `self`",
    ),
    (
        "an item is received behind the drain",
        "prolly_link",
        "src/batch/receiver.rt",
        (RECEIVES, RECEIVE_BEHIND_DRAIN),
        "error[borrow-e0382]: borrow of moved value: `self`",
    ),
    (
        "an open sender is met",
        "prolly_link",
        "src/batch/closed.rt",
        (MEETS, MEET_OPEN),
        "error[mismatched-types]: expected `ClosedBatch<_>`, found `BatchSender<T>`",
    ),
]
"""What is misused, the library, its file, the lines that are replaced and by which, and what the compiler says."""


def all_runs(_, folder):
    """Puts each misuse into a copy of its library, and gives its name and its differences. The copies of the libraries that
    it stands on stay, and what was built of them serves where it is up to date."""
    (folder / "crates").mkdir()
    shutil.copy(PROJECT / "HANDLES", folder)
    for name, library, file, (right, wrong), message in MISUSES:
        lines = lines_of(library)
        (folder / "crates.txt").write_text("".join(f"{line}\n" for line in lines.values()))
        for crate in lines:
            if not (folder / "crates" / crate).exists():
                shutil.copytree(PROJECT / "crates" / crate, folder / "crates" / crate, ignore=shutil.ignore_patterns("out", "*-edits", "must-fail"))
                built = PROJECT / "crates" / crate / "out" / "rlib"
                if crate != library and built.is_dir():
                    shutil.copytree(built, folder / "crates" / crate / "out" / "rlib")
        copy = folder / "crates" / library
        text = (copy / file).read_text()
        assert text.count(right) == 1, f"{file} has changed"
        (copy / file).write_text(text.replace(right, wrong))
        done = subprocess.run(["rt", "check"], cwd=copy, capture_output=True, text=True, check=False)
        said = done.stdout + done.stderr
        yield f"misuse: {name}", [] if done.returncode == 1 and message in said else [f"status {done.returncode}, {shown(said)}"]
        (copy / file).write_text(text)


def lines_of(library):
    """What the project's list of crates says of a library and of those that it stands on, from the lowest one up."""
    listed = dict(line.split(":", 1) for line in (PROJECT / "crates.txt").read_text().splitlines() if not line.startswith("#"))
    found = {}
    for below in listed[library].split():
        if below in listed:
            found.update(lines_of(below))
    return {**found, library: f"{library}:{listed[library]}"}
