#!/usr/bin/python3
"""A dealer's pricer, for its desk's door: MIDS | pricer.py URL TOKEN_FILE, in lines `BOND MID`.

It quotes around the mids that it is given, wider with size, up to a limit of its own. The end of its input
is its kill switch: it withdraws its quotes and ends. F9 on a page of the desk withdraws them too, and stops
it until a trader releases it. `desk/door.schema.json` has the messages.
"""

import asyncio
import json
import sys
from pathlib import Path
from typing import Any
from urllib.parse import urlsplit

import websockets  # Debian: python3-websockets

POINT, HALF_SPREAD, WIDER = (
    256,
    8,
    4,
)  # in 256ths: of a point, from the mid, and more for each million
EXPOSURE = 10_000_000  # nominal, of all live quotes


class Pricer:
    def __init__(self, desk: Any) -> None:
        self.desk = desk
        self.mids: dict[str, float] = {}
        self.requests: dict[str, Any] = {}
        self.acts: dict[int, str] = {}  # the requests of what the desk has not answered, by number
        self.count = 0

    async def act(self, request: str, **command: Any) -> None:
        self.count += 1
        self.acts[self.count] = request
        await self.desk.send(json.dumps({**command, "request": request, "number": self.count}))

    def is_quoted(self, request: Any) -> bool:
        is_live = any(quote["state"] in ("live", "sent") for quote in request["quotes"])
        return is_live or request["id"] in self.acts.values()

    async def quote(self, request: Any) -> None:
        used = sum(one["quantity"] for one in self.requests.values() if self.is_quoted(one))
        may = request["state"] == "open" and not request["pending"] and not request["declined"]
        fits = used + request["quantity"] <= EXPOSURE
        if may and fits and request["bond"] in self.mids and not self.is_quoted(request):
            away = HALF_SPREAD + WIDER * request["quantity"] // 1_000_000
            away = away if request["side"] == "buy" else -away  # who buys is shown an offer
            price = (round(self.mids[request["bond"]] * POINT) + away) // 8 * 8  # on any grid
            await self.act(request["id"], do="quote", price=price, seconds=0, replaces="")

    async def take(self, message: Any) -> None:
        for request in message.get("requests", []):
            self.requests[request["id"]] = request
        for change in message.get("changes", []):
            request = self.requests[change["id"]]
            request.update(change["set"])
            for key, part in change["lists"].items():
                items = dict(enumerate(request[key])) | {at: item for at, item in part["items"]}
                request[key] = [items[at] for at in range(part["size"])]
        if message["t"] == "said":
            self.acts.pop(message["number"], None)
            if message["why"]:
                print(message["why"], flush=True)

    async def hear(self) -> None:
        async for text in self.desk:
            message = json.loads(text)
            await self.take(message)
            if message["t"] == "requests":
                await self.quote_all()

    async def quote_all(self) -> None:
        for request in list(self.requests.values()):
            await self.quote(request)

    async def read(self) -> None:
        lines = asyncio.StreamReader()
        protocol = asyncio.StreamReaderProtocol(lines)
        await asyncio.get_running_loop().connect_read_pipe(lambda: protocol, sys.stdin)
        while words := (await lines.readline()).decode().split():
            self.mids[words[0]] = float(words[1])
            await self.quote_all()

    async def kill(self) -> None:
        for request in self.requests.values():
            if self.is_quoted(request):
                await self.act(request["id"], do="withdraw")


async def main(url: str, token_file: str) -> None:
    page, token = urlsplit(url), Path(token_file).read_text().strip()
    door = "%s://%s/program" % ("wss" if page.scheme == "https" else "ws", page.netloc)
    origin, header = "%s://%s" % (page.scheme, page.netloc), {"Authorization": "Bearer " + token}
    async with websockets.connect(door, origin=origin, extra_headers=header, max_size=None) as desk:  # type: ignore
        pricer = Pricer(desk)
        tasks = {asyncio.create_task(pricer.hear()), asyncio.create_task(pricer.read())}
        await asyncio.wait(tasks, return_when=asyncio.FIRST_COMPLETED)
        await pricer.kill()


if __name__ == "__main__":
    asyncio.run(main(*sys.argv[1:]))
