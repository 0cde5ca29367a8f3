"""Plans on LAN parameters, and undo texts of both versions, between two programs."""
from . import servers
from .servers import Server, call, expect

SERVED_TURNS, TURNS = 400, 2000
ITEM = "\n[[lan]]\nchannel = 1\nip = [192, 0, 2, 1]\nsource = 1\nmask = [255, 255, 255, 0]\ngateway = [192, 0, 2, 254]\nvlan = [0, 0]\n"
PLAN = '[[step]]\nkind = "lan-param"\nchannel = 1\nparam = 3\ndata = [192, 0, 2, 10]\n'
NAMES = "names ipmb 2C 20 smbus 30 20 eid 08 0A\n"
UNDO = f"undo 2\nnext ipmb 2 smbus 0\n{NAMES}ipmb 30010103C0000201\n"
FIRST = UNDO.replace("undo 2\n", "undo 1\n").replace(NAMES, "")


def goes_back(program, folder, board, kept):
    """An address is set, and goes back by the text that the run wrote, or by one of these bytes."""
    lan = servers.write(f"{folder}/lan.toml", servers.read(board) + ITEM)
    plan, undo = servers.write(f"{folder}/plan.toml", PLAN), f"{folder}/undo.txt"
    with Server(program, lan, SERVED_TURNS) as server:
        expect("run", call(program, "run", plan, *server.ports, TURNS, undo), (0, "phase Done\n", ""))
        expect("the undo text", servers.read(undo), UNDO)
        if kept is not None:
            servers.write(undo, kept)
        expect("undo", call(program, "undo", undo, *server.ports, TURNS), (0, "phase Undone\n", ""))
        expect("serve", server.ended(), (0, "served 3\nrecords same\n", ""))


def tests(board):
    return [("an address on a LAN", goes_back, (board, None)), ("an undo text of version 1", goes_back, (board, FIRST))]
