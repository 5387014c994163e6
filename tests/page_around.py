"""What stands around the page in its tests: the native library, and a server on this machine."""
import http.server
import os
import pathlib
import subprocess
import threading

from page_person import BUILT, PAGE, ROOT, WORK


def prepared():
    """The page and the native program, built where they are not there; gives the native program's calls."""
    if not PAGE.exists():
        subprocess.run([ROOT / "build", "page"], check=True)
    archive = os.environ.get("FIDROVELJ_LIB") or ROOT / "target" / "staticlib" / "libcapi.a"
    if not pathlib.Path(archive).exists():
        subprocess.run([ROOT / "build", "library"], check=True)
    WORK.mkdir(parents=True, exist_ok=True)
    program = WORK / "page_native"
    subprocess.run([os.environ.get("CC", "cc"), "-std=c11", "-O2", "-Wall", "-Wextra", "-Werror",
                    f"-I{ROOT / 'include'}", ROOT / "tests" / "page_native.c", archive, "-o", program], check=True)
    return lambda *words: subprocess.run([program, *words], capture_output=True, text=True, check=True).stdout


def declared(call):
    """Whether the library has a call; where it has not, the page says less."""
    return f"fidrovelj_{call}(" in (ROOT / "include" / "fidrovelj.h").read_text()


def served():
    """A server of the page on this machine, and the requests that it had."""
    requests = []

    class Handler(http.server.SimpleHTTPRequestHandler):
        def __init__(self, *words):
            super().__init__(*words, directory=BUILT)

        def log_message(self, *_):
            requests.append(self.path)

    server = http.server.ThreadingHTTPServer(("127.0.0.1", 0), Handler)
    threading.Thread(target=server.serve_forever, daemon=True).start()
    return f"http://127.0.0.1:{server.server_port}/fidrovelj.html", requests
