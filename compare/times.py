"""What compare/bench and compare/peers share: how a table of times is printed."""
import datetime
import os
import platform
import re
import subprocess

TOP = os.path.dirname(os.path.dirname(os.path.abspath(__file__)))


def figure(x, digits=1):
    """So many digits behind the point below 10, one below 100, none from there on."""
    return f"{x:,.0f}" if x >= 100 else f"{x:.1f}" if x >= 10 else f"{x:.{digits}f}"


def table(*rows):
    for cells in rows:
        print("| " + " | ".join(cells) + " |")


def processor():
    try:
        text = subprocess.run(["lscpu"], stdout=subprocess.PIPE, text=True, env={**os.environ, "LC_ALL": "C"}).stdout
    except OSError:
        text = ""
    found = [re.search(rf"^{name}: *(\S.*)$", text, re.M) for name in ("Vendor ID", "Model name")]
    words = " ".join(m.group(1) for m in found if m) or "processor not known"
    return re.sub("^(GenuineIntel|AuthenticAMD) ", "", words) + ", " + platform.machine()


def rounds(words):
    return words[words.index("--rounds") + 1] if "--rounds" in words else "100"


def heading(words):
    """The line above a table: asked for before anything is timed, for the load."""
    load = os.getloadavg()[0]
    return f"{datetime.date.today()}, {processor()}, {os.cpu_count()} processors, load {load:.1f} before: the best of {rounds(words)} rounds in one process."
