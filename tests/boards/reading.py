"""What the paper says that each call answers to a board, and leaves in lent memory."""
import blockfiles
import paper
from form import Reply


def refused(board, least):
    """The refusal of a call on a problem, or None: what is lent is at least so long, then the problem itself."""
    if any(board.own[name] < length for name, length in least.items()):
        return Reply(1)
    found = paper.refusal(board.words, board.rules, board.own.get("limit", 0))
    return Reply(*found) if found else None


def check(board):
    return refused(board, {}) or Reply("ok")


def tighten(board):
    reply = refused(board, {"work": 320})
    if reply:
        return reply
    left = paper.tightened(board.words, board.rules)
    return Reply("conflict", stored={"words": []}) if left is None else Reply("tight", stored={"words": left})


def solve(board):
    reply = refused(board, {"work": 4608, "model": len(board.words) // 3})
    if reply:
        return reply
    answer, count, values = paper.search(board.words, board.rules, board.own["limit"])
    return Reply(answer, count, stored={"model": values} if answer == "found" else {})


def explain(board):
    reply = refused(board, {"list": 193})
    if reply:
        return reply
    question = [board.own[x] for x in ("rule", "place", "bit")]
    if not paper.is_question(board.words, board.rules, *question):
        return Reply(10)
    rule = board.rules[6 * question[0] :][:6]
    said, entries = paper.reason(board.words, rule, *question[1:])
    answer, _, value = said.partition(" ")
    return Reply(answer, int(value or 0), len(entries), {"list": entries})


def cause(board):
    reply = refused(board, {"work": 5120, "list": len(board.rules) // 6})
    if reply:
        return reply
    answer, total, kept = paper.cause(board.words, board.rules, board.own["limit"])
    return Reply(answer, total, len(kept), {"list": kept}) if answer == "cause" else Reply(answer, total)


def read(board):
    found, parts = blockfiles.read(board.file, (board.own["words"], board.own["rules"]), paper.refusal)
    if found:
        return Reply(*found)
    words, rules, limit = parts
    if blockfiles.written(words, rules, limit) != board.file:
        raise ValueError("a file that reads is not written back: " + board.name)
    return Reply("ok", limit, len(words) // 3 + 256 * (len(rules) // 6), {"words": words, "rules": rules})


def write(board):
    found, file = blockfiles.write(board.words, board.rules, board.own["limit"], board.own["file"], paper.refusal)
    return Reply(*found) if found else Reply("ok", len(file), stored={"file": list(file)})


def lines(file):
    """The lines of the adviser program for a file."""
    found, parts = blockfiles.read(file, (96, 1512), paper.refusal)
    if found:
        return "refused %d %d\n" % found
    words, rules, limit = parts
    answer, count, values = paper.search(words, rules, limit)
    if answer == "gaveup":
        return f"unknown {count}\n"
    if answer == "found":
        return f"sat {count}\n" + "".join(f"{i} {words[3 * i]} {value:0{words[3 * i]}b}\n" for i, value in enumerate(values))
    _, total, kept = paper.cause(words, rules, limit)
    return f"unsat {count}\n" + (f"cause unknown {total}\n" if kept is None else " ".join(map(str, ["cause", total] + kept)) + "\n")


def advise(board):
    """For the file of a board of `read`, with as much lent as is asked for."""
    put = lines(board.file).encode("ascii")
    return Reply("ok", len(put), stored={"out": list(put)})


CALLS = {"check": check, "tighten": tighten, "solve": solve, "explain": explain, "cause": cause, "read": read, "write": write}
