"""What the drivers share: their command line, one run of the program, and holding many runs against what is expected of each."""
import argparse, subprocess, sys, tempfile, time
from concurrent.futures import ThreadPoolExecutor
from pathlib import Path

TOP = Path(__file__).resolve().parents[2]


def options(text, **more):
    """The options of a driver; `more` are flags of its own by their help."""
    parser = argparse.ArgumentParser(description=text)
    parser.add_argument("--program", default=str(TOP / "sideways"), help="the program (default: that of the repository)")
    parser.add_argument("--seed", type=int, default=24, help="the seed of what is random (default: 24)")
    parser.add_argument("--times", type=int, default=1, help="how often as many random cases (default: 1)")
    for name, told in more.items():
        parser.add_argument("--" + name, action="store_true", help=told)
    given = parser.parse_args()
    given.program = str(Path(given.program).resolve())
    # A script that calls the program would be met by limits and refusals itself.
    if Path(given.program) == TOP / "sideways":
        subprocess.run([given.program, "prove"], check=True)
        given.program = str(TOP / "crates/sideways/out/sideways")
    subprocess.run([given.program, "--help"], stdout=subprocess.DEVNULL, check=True)
    return given


def bytes_of(path):
    """What stands in a file; None where there is none."""
    return path.read_bytes() if path.exists() else None


def told(program, words, folder, **more):
    """The status, the output and what is told on standard error of one run in a folder. A signal is a status below 0."""
    done = subprocess.run([program] + words, cwd=folder, stdin=subprocess.DEVNULL, capture_output=True, timeout=300, **more)
    return done.returncode, done.stdout.decode(errors="replace"), done.stderr.decode(errors="replace")


def without_words(text):
    """What is told on standard error up to its fault line: the words behind that are held by tests/words.py."""
    at = text.find("sideways: refused ")
    return text if at < 0 else text[:text.find("\n", at) + 1]


class Wrong(Exception):
    pass


def wrong(name, files, words, expected, got):
    """Ends a driver at its first wrong case, whose files are kept."""
    kept = Path(tempfile.mkdtemp(prefix="wrong."))
    for file, data in files.items():
        (kept / file).write_bytes(data)
    raise Wrong("WRONG: %s\n  sideways %s   (files in %s)\n  expected %r\n  got      %r" %
                (name, " ".join(words), kept, expected, got))


class Holder:
    """Runs cases side by side and counts them. A case is a name, files, words, and the status, output and fault expected."""

    def __init__(self, program):
        self.program, self.folder = program, tempfile.TemporaryDirectory()
        self.counts, self.began, self.made = {}, time.time(), 0

    def fresh(self, number, files):
        """A folder of its own with some files."""
        folder = Path(self.folder.name) / str(number)
        folder.mkdir()
        for file, data in files.items():
            (folder / file).write_bytes(data)
        return folder

    def clear(self, folder):
        for file in folder.iterdir():
            file.unlink()
        folder.rmdir()

    def one(self, number, name, files, words, expected):
        folder = self.fresh(number, files)
        status, out, fault = told(self.program, words, folder)
        got = status, out, without_words(fault)
        if got != expected:
            wrong(name, files, words, expected, got)
        self.clear(folder)
        return got[0]

    def hold(self, kind, cases, answered=0, refused=0):
        """Holds all cases of a kind, and says how many there were of each status. So many are answered and so many refused at least."""
        statuses, futures = {}, []
        with ThreadPoolExecutor(3) as pool:
            for case in cases:
                self.made += 1
                futures.append(pool.submit(self.one, self.made, *case))
            try:
                for future in futures:
                    status = future.result()
                    statuses[status] = statuses.get(status, 0) + 1
            except BaseException:
                pool.shutdown(cancel_futures=True)
                raise
        shown = ", ".join("%d with status %d" % (statuses[status], status) for status in sorted(statuses))
        print("%s: %d as expected: %s" % (kind, len(futures), shown), flush=True)
        got = statuses.get(0, 0), statuses.get(2, 0) + statuses.get(3, 0)
        if got[0] < answered or got[1] < refused:
            raise Wrong("WRONG: %s: %d answered and %d refused, wanted %d and %d at least" % (kind, *got, answered, refused))

    def end(self):
        print("%d cases in %.0f s" % (self.made, time.time() - self.began))


def ended(driver):
    """Calls a driver; status 1 and the first wrong case where one is."""
    try:
        driver()
    except Wrong as case:
        print(case)
        sys.exit(1)
