"""A pane of tmux into which the checks of this folder type, and from which they read."""
import os
import subprocess
import time

ROOT = os.path.dirname(os.path.dirname(os.path.abspath(__file__)))
PROMPT = f"{ROOT}/crates/prompt_demo/prompt.sh"
SOCKET = f"tmux_pane_{os.getpid()}"
SETTINGS = {"status": "off", "default-terminal": "screen-256color", "escape-time": "0", "remain-on-exit": "on"}


def tmux(*words):
    """What a command of tmux prints."""
    command = ["tmux", "-L", SOCKET, "-f", "/dev/null", *words]
    locale = {**os.environ, "LC_ALL": "C.UTF-8"}
    return subprocess.run(command, capture_output=True, text=True, check=False, env=locale).stdout


def open_pane(cols, height, program):
    """Starts a program on a pane of this size, in the place of the one before."""
    tmux("kill-server")
    time.sleep(0.05)
    settings = [word for name, value in SETTINGS.items() for word in ("set", "-g", name, value, ";")]
    tmux("start-server", ";", *settings, "new-session", "-d", "-x", str(cols), "-y", str(height), program)


def trimmed(rows):
    """Rows without the spaces and the empty rows at their ends."""
    rows = [row.rstrip() for row in rows]
    while rows and not rows[-1]:
        rows.pop()
    return rows


def pane():
    """What the pane shows, and where its cursor stands."""
    rows = trimmed(tmux("capture-pane", "-p").splitlines())
    cursor = tmux("display-message", "-p", "#{cursor_y} #{cursor_x}").split()
    return rows, tuple(map(int, cursor))
