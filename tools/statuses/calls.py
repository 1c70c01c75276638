"""What the program does: how each is called, and a small input that it takes."""

from dumps import DUMP
from histories import HISTORY
from logs import PURGE
from outcomes import STORE_AND_LOADS
from runs import ALONE
from scripts import ROW

SCRIPTS = {"script": "script", "trace": "trace", "log": "trace --log", "page": "trace --page"}
RACES = {"outcomes": "outcomes", "states": "outcomes --page"}
WORKS = {"run": "run", "receipts": "run --history"}
TEXTS = dict.fromkeys(["dump", "history", "followed"], "check")
CALLS = {**SCRIPTS, **RACES, "talk": "talk", **WORKS, **TEXTS}
INPUTS = {
    **dict.fromkeys([*SCRIPTS, "talk"], ROW),
    **dict.fromkeys(RACES, STORE_AND_LOADS),
    **dict.fromkeys(WORKS, ALONE),
    **{"dump": DUMP, "history": HISTORY, "followed": PURGE},
}
