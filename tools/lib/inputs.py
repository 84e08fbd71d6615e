"""Inputs of the program that stand in the repository, and runs of a program on them."""
import pathlib
import re
import resource
import signal
import subprocess
import tempfile

TOP = pathlib.Path(__file__).resolve().parent.parent.parent
WIDTHS = ["1", "2", "4", "8", "16"]
ROW = re.compile(r'^(?:\s*")?(simulate|record|replay|scramble|obj|marks|host) \S+ < (.*?) => \d+', re.M)
FORMS = {"cape.txt": "obj", "rollback.txt": "marks", "host.txt": "host"}


def rows():
    """Returns the inputs of the worked rows, each with its form."""
    text = (TOP / "crates/pbd_tests_run/src/tests/rows.rt").read_text()
    found = [(form, given.replace("\\r", "\r").replace("\\t", "\t").replace("; ", "\n")) for form, given in ROW.findall(text)]
    if len(found) < 80:
        raise SystemExit("rows.rt of pbd_tests_run has other rows than this tool reads")
    return [(form, f"{given}\n".encode()) for form, given in found]


def wide():
    """Returns inputs with numbers of 33 bits, which name nothing, though their lower 32 do, each with its form."""
    scene = "[[particle]]\nat = [0, 0, 0]\n[[particle]]\nat = [9, 0, 0]\n[[link]]\na = 0\nb = 1\n"
    first, second = 2**32, 2**32 + 1
    script = f"cut {first}\npin {first}\nunpin {second}\nmove {first} 1 2 3\nstep {second}\nframe\ncut 0\n"
    marks = f"mark {first}\nrewind {second}\nmark 0\nrewind {first}\nframe\n"
    return [
        ("simulate", f"{scene}%%\n{script}".encode()),
        ("simulate", f"{scene}pins = [{first}]\n%%\nframe\n".encode()),
        ("simulate", scene.replace("b = 1", f"b = {second}").encode() + b"%%\nframe\n"),
        ("marks", f"{scene}%%\n{marks}".encode()),
        ("host", f"{scene}%%\n%%%\n{first} frame\n0 cut {first}\n0 frame\n".encode()),
        ("obj", f"v 0 0 0\nv 1 0 0\nv 0 1 0\nf {second} 2 3\n%%\n%%\nframe\n".encode()),
        ("scramble", f"{scene}%%\n{script}".encode()),
    ]


def examples():
    """Returns the examples: the path of each, and its form."""
    paths = [it for it in sorted((TOP / "examples").glob("*.*")) if it.suffix in (".txt", ".log")]
    return [(it, "replay" if it.suffix == ".log" else FORMS.get(it.name, "simulate")) for it in paths]


def answer(command, words, given, seconds):
    """Returns what a run writes and its status, or nothing where it takes more seconds of a processor, or ten times as long."""
    # (a file, since what a program starts may keep a pipe open)
    with tempfile.TemporaryFile() as written:
        ran = subprocess.Popen([*command, *words], stdin=subprocess.PIPE, stdout=written, stderr=subprocess.DEVNULL)
        # (what else the machine does changes nothing of what is compared)
        resource.prlimit(ran.pid, resource.RLIMIT_CPU, (seconds, seconds))
        try:
            ran.communicate(given, timeout=10 * seconds)
        except subprocess.TimeoutExpired:
            ran.kill()
            ran.wait()
        if ran.returncode in (-signal.SIGXCPU, -signal.SIGKILL):
            return None
        written.seek(0)
        return written.read(), ran.returncode
