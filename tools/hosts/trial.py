"""The setup of the trial, and the checks after each of its parts."""

import time

from .clients import Away, Client, Json, Load, Lost, Site, ask
from .keeper import REFUSED, STORE, Keeper, look_into
from .network import STEP_TIMEOUT, Host, make_switch, wait_for
from .pulse import Pulse
from .records import Records
from .services import Service
from .volume import DIRECT, FRESH, OPTIONS, STRICT_LOCKS, Volume

MEMBERS = range(1, 9)
LOAD_CLIENTS = range(9, 14)
HALF = 32768
QUICK = 10  # seconds within which another host has to answer, by the pulse
PLANTED = ("no-strict-locks", "page-cache", "other-brick", "dropped-answers", "old-copy", "signal-again",
           "not-rewritten")


def report(text: str) -> None:
    print(f"  {text}", flush=True)


def topology() -> str:
    """A ring: each member is linked to the next one."""
    nodes = "".join(f"[[node]]\nid = {node}\ngroup = 1\n" for node in MEMBERS)
    links = "".join(f"[[link]]\na = {node}\nb = {node % len(MEMBERS) + 1}\n" for node in MEMBERS)
    return f"half = {HALF}\n{nodes}{links}"


class Trial:
    def __init__(self, program: str, folder: str, planted: str | None, seed: int) -> None:
        self.program, self.folder, self.planted = program, folder, planted
        self.hosts = [Host(number, folder) for number in (1, 2, 3)]
        options = {**OPTIONS, STRICT_LOCKS: "off"} if planted == "no-strict-locks" else OPTIONS
        self.volume = Volume(self.hosts, options, FRESH if planted == "page-cache" else f"{DIRECT},{FRESH}")
        self.keepers = [Keeper(program, host, planted != "not-rewritten") for host in self.hosts[:2]]
        self.records, self.pulse = Records(self.keepers), Pulse()
        self.site = Site(self.hosts[2], self.keepers)
        self.clients = [Client(number, self.site, self.records) for number in (*MEMBERS, *LOAD_CLIENTS)]
        self.services = list[Service]()
        self.load = Load(self.clients[len(MEMBERS):], list(MEMBERS), seed)
        if planted == "dropped-answers":
            self.load.clients[0].drops = 5

    def begin(self) -> None:
        """Sets everything up: a coordinator on host 1, and a standby on host 2 that was refused."""
        make_switch(self.folder)
        for host in self.hosts:
            host.boot()
        self.volume.make()
        with open(f"{self.folder}/ring.toml", "w", encoding="utf-8") as file:
            file.write(topology())
        first, second = self.keepers
        status, printed = first.command("init", f"{self.folder}/ring.toml")
        if status != 0:
            raise Lost(f"resetd init: {printed}")
        if self.planted == "page-cache":  # the kernel keeps no page of a file that grows
            first.host.run("truncate", f"--size={17 + 2 * HALF}", STORE)
        with open(f"{self.folder}/old", "wb") as old:
            old.write(self.volume.bytes()[0])
        report(f"host1: resetd init /srv/resetd/store ring.toml: {printed.strip()}")
        first.start()
        wait_for("a coordinator on host 1", lambda: first.starts() == 1)
        report(f"host1: resetd serve /srv/resetd/store {first.address}: listening")
        report(f"host2: the same, {second.address}: status {second.serve_by_hand()}")
        second.start()
        second.wait_refused()
        self.services = [Service(node, self.clients[node - 1], self.keepers) for node in MEMBERS]
        for service in self.services:
            service.thread.start()

    @property
    def present(self) -> Keeper:
        return self.site.present

    def other(self, keeper: Keeper) -> Keeper:
        return next(other for other in self.keepers if other is not keeper)

    def restart(self, keeper: Keeper) -> None:
        """Switches the host of a coordinator on again, with its brick, the volume and a standby."""
        keeper.host.boot()
        self.volume.join(keeper.host)
        keeper.start()

    def wait_takeover(self, keeper: Keeper, since: float) -> float:
        """Waits until another host's coordinator has answered an order of the load. Returns the seconds that it took."""
        wait_for(f"an answer of {keeper.host.name}",
                 lambda: self.load.fault or keeper.gave_up() or self.records.first_answer(keeper, since), 0.01)
        answered = self.records.first_answer(keeper, since)
        if answered is None:
            raise self.load.fault or Lost(f"the start on {keeper.host.name} ended with {keeper.gave_up()}")
        self.check_quick(since, answered)
        return answered - since

    def check_quick(self, since: float, until: float) -> None:
        """Checks that no more than QUICK seconds were between two answers, or between a loss and the next answer."""
        beaten = self.pulse.seconds(since, until)
        if beaten > QUICK:
            raise Lost(f"no order was answered for {until - since:.1f} s, {beaten:.1f} s by the pulse: {QUICK} are allowed")

    def wait_quiet(self) -> tuple[Keeper, Json, dict[int, int]]:
        """Waits until no reset is in progress, each member has confirmed, and each order has its answer. Returns the epochs. (A
        settled order is in `show` before its answer has arrived; then the order before it would be out of turn.)"""
        keeper, until = self.present, time.monotonic() + STEP_TIMEOUT
        while time.monotonic() < until:
            view, keeper = self.site.ask({"op": "show"})
            rows = view["nodes"]
            if all(row[2] == "ready" and row[4] == row[5] for row in rows) and \
                    view["accepted"] == view["settled"] and not any(client.unanswered for client in self.clients) and \
                    self.site.ask({"op": "resend"})[0] == {"count": 0, "kind": "resent"}:
                return keeper, view, {row[0]: row[4] for row in rows}
            for service in self.services:
                if service.fault:
                    raise service.fault
            time.sleep(0.05)
        raise Lost(f"a reset did not end within {STEP_TIMEOUT} s: {rows}")

    def check(self) -> None:
        """Checks everything that was promised, while no order is in progress."""
        keeper, view, epochs = self.wait_quiet()
        for client in self.clients:
            client.repeat()
        if view["accepted"] < self.records.last_step():
            raise Lost(f"step {self.records.last_step()} was answered, but {keeper.host.name} has only {view['accepted']}")
        self.plant(keeper)
        self.records.note_epochs(epochs)
        signals = len(self.records.signals())
        held, healed = self.volume.wait_healed(keeper.host)
        self.check_file(held, view["accepted"])
        report(f"all {len(self.records.steps)} answered orders are there, the last one of each client answers the same "
               f"again; {signals} signals, none twice; no epoch went back")
        report(f"the three bricks have the same {len(held)} bytes ({healed:.1f} s to heal); resetd check: "
               f"legal {view['accepted']}")
        took = self.hand_over()
        report(f"handed over by a close, so that the file is open on all three: {self.present.host.name} answers after "
               f"{took:.1f} s\n")

    def plant(self, keeper: Keeper) -> None:
        """Plants the faults, to see that they are found."""
        if self.planted == "other-brick":
            with open(f"{self.hosts[2].folder}/srv/brick/resetd/store", "r+b") as file:
                file.seek(20)
                old = file.read(1)
                file.seek(20)
                file.write(bytes([old[0] ^ 1]))
        elif self.planted == "signal-again":
            with open(keeper.path("signals"), "a", encoding="utf-8") as file:
                file.write(f"{self.keepers[0].lines('signals')[-1]}\n")

    def check_file(self, held: bytes, steps: int) -> None:
        """Checks that the bytes are a legal store with exactly these steps, and with the epochs that were shown."""
        status, printed, rows = look_into(self.program, held, self.folder)
        if status != 0 or printed != f"legal {steps}":
            raise Lost(f"resetd check ended with status {status}: {printed}, and {steps} steps were shown")
        self.records.note_epochs({int(row[1]): int(row[5]) for row in rows})

    def end_old(self, keeper: Keeper, before: int, request: Json) -> str:
        """Sends a request to an old coordinator, whose end follows this number of earlier ones: it must refuse, and a close
        ends it with the fault of its device. If a client of the load has already closed it, only its end is seen."""
        try:
            reply = ask(self.site.host, keeper.address, request, STEP_TIMEOUT)
            if reply.get("name") != "Stopped":
                raise Lost(f"the old coordinator on {keeper.host.name} answered {reply}")
            closed = ask(self.site.host, keeper.address, {"op": "close"}, STEP_TIMEOUT)
            if closed != {"kind": "closed"}:
                raise Lost(f"the old coordinator on {keeper.host.name} answered a close {closed}")
        except Away as fault:
            response = f"answered {request['op']}: {fault}"
        else:
            response = "answered a new order with Stopped"
        wait_for(f"the end on {keeper.host.name}, which {response}", lambda: len(keeper.ends()) > before)
        ended = keeper.ends()[before]
        if ended != REFUSED:
            raise Lost(f"the old coordinator on {keeper.host.name} ended with {ended}")
        return f"{response}, and ended after a close: status {ended}"

    def starts(self) -> int:
        return sum(keeper.starts() for keeper in self.keepers)

    def serving(self) -> Keeper:
        """Returns the coordinator that serves."""
        return self.site.ask({"op": "show"})[1]

    def close(self) -> Keeper:
        """Ends the coordinator that serves, in order. Returns it."""
        keeper = self.serving()
        ended = len(keeper.ends())
        ask(self.site.host, keeper.address, {"op": "close"}, STEP_TIMEOUT)
        wait_for(f"the end on {keeper.host.name}", lambda: len(keeper.ends()) > ended)
        if keeper.ends()[ended] != "0":
            raise Lost(f"closed in order, the coordinator on {keeper.host.name} ended with {keeper.ends()[ended]}")
        return keeper

    def hand_over(self) -> float:
        """Ends the present coordinator in order, and waits for the next start on any host. Returns the seconds that it took. A
        coordinator has the file open on the bricks that its host had when it opened the file, so each host must have all
        bricks."""
        for keeper in self.keepers:
            wait_for(f"{keeper.host.name}: all bricks", lambda: self.volume.is_connected(keeper.host), 0.2)
        starts, begun = self.starts(), time.monotonic()
        self.close()
        wait_for("a start after the close", lambda: self.starts() > starts, 0.01)
        self.site.ask({"op": "show"})
        return time.monotonic() - begun

    def hand_over_to(self, keeper: Keeper) -> None:
        """Closes coordinators until this one serves."""
        until = time.monotonic() + STEP_TIMEOUT
        while self.present is not keeper:
            if time.monotonic() > until:
                raise Lost(f"{keeper.host.name} did not serve again")
            self.hand_over()

    def print_state(self) -> None:
        """Prints the state of each host at a loss."""
        print(f"orders: {[(client.answered, client.reply, client.unanswered) for client in self.clients]}")
        for keeper in self.keepers:
            print(f"{keeper.host.name}: {keeper.starts()} starts; ends: {' | '.join(keeper.ends()[-5:])}")
            try:
                print(f"  show: {ask(self.site.host, keeper.address, {'op': 'show'})}")
            except Away as fault:
                print(f"  show: {fault}")
        for host, held in zip(self.hosts, self.volume.bytes()):
            status, printed, _ = look_into(self.program, held, self.folder)
            print(f"brick of {host.name}: {len(held)} bytes; resetd check: {status} {printed}")

    def stop(self) -> Keeper:
        """Stops the services, and then the coordinator. Returns it."""
        for service in self.services:
            service.stop()
        return self.close()
