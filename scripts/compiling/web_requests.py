"""A page on the web whose handler is a guest: uvicorn serves it, and curl asks 1,000 times, 16 at once. A tenth of the
requests break the handler."""

from __future__ import annotations

import os
import random
import shutil
import socket
import time
from collections import Counter
from collections.abc import Iterator
from contextlib import contextmanager

from compiling.bench_tools import LIBRARY, CheckFailed, Workshop
from lwcrun_tools.checkout import TOP
from lwcrun_tools.processes import in_session

NEEDED = ("uvicorn", "curl")
AT_ONCE = 16
PRICES = {"tea": 350, "coffee": 420, "milk": 120}
APPLICATION = "import os\nfrom lwcrun.asgi import App\n\napp = App(os.environ['IMAGE'])\n"


def free_port() -> int:
    with socket.socket() as taken:
        taken.bind(("127.0.0.1", 0))
        port: int = taken.getsockname()[1]
        return port


@contextmanager
def served(shop: Workshop, image: str) -> Iterator[str]:
    """uvicorn, with an image behind it; its address."""
    port, folder = free_port(), os.path.join(shop.work.folder, "web")
    os.makedirs(folder, exist_ok=True)
    shop.write(os.path.join(folder, "page.py"), APPLICATION)
    path = os.pathsep.join([folder, os.path.join(TOP, "embed", "python")])
    words = ["uvicorn", "--port", str(port), "--log-level", "warning", "page:app"]
    with open(os.path.join(folder, "log"), "wb") as log:
        with in_session(words, folder, log, PYTHONPATH=path, IMAGE=image, LWCRUN=shop.program):
            for _ in range(300):
                with socket.socket() as tried:
                    if tried.connect_ex(("127.0.0.1", port)) == 0:
                        break
                time.sleep(0.1)
            else:
                raise CheckFailed("uvicorn did not begin")
            yield f"http://127.0.0.1:{port}"


def request_of(chance: random.Random, number: int) -> tuple[str, str, str, str]:
    """A request: its path, its body, and the status and the body that it has to get."""
    kind = 0 if number % 10 == 0 else chance.randint(1, 3)
    if kind == 0:
        return f"/break?{number}", "", "500", "the handler ended with fault 3\n"
    if kind == 1:
        item = chance.choice([*PRICES, "gold"])
        good = item in PRICES
        return (
            f"/price?n={number}&item={item}",
            "",
            "200" if good else "404",
            f"{PRICES[item]}\n" if good else "no such item\n",
        )
    if kind == 2:
        numbers = [chance.randint(-1000, 1000) for _ in range(chance.randint(1, 300))]
        return "/sum", " ".join(map(str, numbers)), "200", f"{sum(numbers)}\n"
    return f"/no{number}", "", "404", f"no such page: /no{number}\n"


def check(shop: Workshop, chance: random.Random, count: int) -> list[str]:
    """What is wrong of the replies to requests by curl."""
    image = shop.compile([os.path.join(LIBRARY, "web.c")])
    requests = [request_of(chance, number) for number in range(count)]
    made = [shop.work.path(f"reply.{number}") for number in range(count)]
    with served(shop, image) as address:
        lines = []
        for (path, body, _, _), name in zip(requests, made):
            data = f'data-binary = "{body}"\n' if body else ""
            lines.append(f'url = "{address}{path}"\n{data}output = "{name}"\nwrite-out = "{name} %{{http_code}}\\n"\n')
        config = shop.write(shop.path(".curl"), "next\n".join(lines))
        began = time.monotonic()
        said = shop.call(["curl", "-s", "--no-progress-meter", "-Z", "--parallel-max", str(AT_ONCE), "-K", config])
        took = time.monotonic() - began
        long = shop.write(shop.path(".body"), b"1" * 4097)
        form = ["-s", "-o", os.devnull, "-w", "%{http_code} %header{lwcrun-fault}"]
        ends = [
            shop.call(["curl", *form, *words]).decode().strip()
            for words in (
                [f"{address}/sum", "--data-binary", f"@{long}"],
                [f"{address}/break"],
                [f"{address}/"],
            )
        ]
        load = load_of(shop, address, count)
    status = dict(line.rsplit(" ", 1) for line in said.decode().splitlines())
    wrong = [
        f"{path}: status {status.get(name)}, and not {code}"
        for (path, _, code, body), name in zip(requests, made)
        if status.get(name) != code or content_of(name) != body
    ]
    if ends != ["413", "500 3", "200"]:
        wrong.append(f"a long request, a fault and the first page have {ends}")
    codes = ", ".join(f"{number} of status {code}" for code, number in sorted(Counter(status.values()).items()))
    print(
        f"{count} requests by curl, {AT_ONCE} at once, in {took:.1f} s: {codes}; {len(wrong)} wrong{load}", flush=True
    )
    return wrong


def load_of(shop: Workshop, address: str, count: int) -> str:
    """What the load tool hey measures, where it is there."""
    if not shutil.which("hey"):
        return ""
    said = shop.call(
        ["hey", "-n", str(count // AT_ONCE * AT_ONCE), "-c", str(AT_ONCE), f"{address}/price?item=tea"]
    ).decode()
    rate = next((line.split()[1] for line in said.splitlines() if "Requests/sec" in line), "none")
    good = next((line.split()[1] for line in said.splitlines() if "[200]" in line), "0")
    return f"; by hey {rate} requests a second, {good} of status 200"


def content_of(name: str) -> str:
    try:
        with open(name, encoding="utf-8") as file:
            return file.read()
    except OSError:
        return ""


def missing() -> list[str]:
    """The commands that are not there."""
    return [name for name in NEEDED if not shutil.which(name)]
