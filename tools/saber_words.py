"""What the prompt says of commands and refusals: one line each, as docs/COMMANDS.md has them."""

COMMANDS = ("load", "unload", "swap", "edit", "compile", "run", "stop", "delete", "step", "next", "cont", "stepi",
            "where", "print", "list", "machine", "disas", "xref", "whatis", "eval", "report", "drop", "reset", "quit")
HELP = {
    "load M": "translates M.c and puts module M behind those that are present",
    "unload M": "takes the module away",
    "swap M source|object|fast": "calls of M are interpreted and checked, or run its object, or its faster one",
    "edit M [FILE]": "gives M the text of FILE, or of M.c, also while a run stands",
    "compile M [fast]": "writes M's object to M.o, or the faster one to M.fast.o",
    "run [FILE]": "runs the program from its start; FILE is its input",
    "stop in F | at M:N": "runs stop as F is entered, or before what stands on line N of M",
    "delete K": "takes stop K away",
    "step, next": "to the next line; next goes over calls",
    "cont": "to the next stop",
    "stepi": "by one instruction of compiled code",
    "where": "the active calls, the innermost one first",
    "print NAME": "the value of a name in the innermost call",
    "machine, disas F": "the registers of compiled code; the instructions of a function",
    "xref NAME, whatis NAME": "the places of a name; its type",
    "eval M E": "the value of expression E, in a run of its own",
    "list": "the modules, functions and stops, and the state",
    "report K, drop K": "what probe K tells; takes it away",
    "reset, quit": "forgets the run; ends the session",
}
# the words of the prompt itself
OWN_HELP = {
    "help": "this list",
    "p NAME, p EXPRESSION": "a value in the call that is looked at, also of p->x[2].y",
    "bt": "the calls with their lines",
    "up [N], down [N]": "looks at an outer call, or back at an inner one",
    "info locals": "the names of the function that is looked at, with their values",
    "finish": "goes on until the present call is left",
    "why": "explains the undefined step in which the run ended",
}
OWN = ("help", "p", "bt", "up", "down", "info", "finish", "why")
# words of other debuggers, and what does the same here
OTHERS = {
    **dict.fromkeys(("b", "br", "break", "tbreak"), "stop in F, or stop at M:N,"), **dict.fromkeys(("c", "continue"), "cont"), **dict.fromkeys(("n", "ni"), "next"),
    **dict.fromkeys(("s", "si"), "step"), **dict.fromkeys(("r", "start"), "run"), "backtrace": "bt", "frame": "up, or down,", "clear": "delete K",
    **dict.fromkeys(("q", "exit"), "quit"), **dict.fromkeys(("x", "display", "call"), "p EXPRESSION"), "ptype": "whatis NAME", "disassemble": "disas F",
}
REFUSALS = {
    "C1": "there is no such command; help lists them",
    "C2": "other words than those of the command, or too long a line; help lists them",
    "C3": "there is no such module; list shows those that are loaded",
    "C4": "the module is loaded already; edit gives it a new text",
    "C5": "the text is refused; docs/LANGUAGE.md has the kinds, and tools/saber-prep writes C of today in what is taken",
    "C6": "the other module defines this name too",
    "C7": "the other module declares this name with another type",
    "C8": "there is no such file",
    "C9": "the file is not the module's object; compile writes it",
    "C10": "a run stands; reset forgets it",
    "C11": "no run stands; run begins one",
    "C12": "not in a run that ended or was paused",
    "C13": "no module defines main",
    "C14": "there is no room for so much",
    "C15": "reading or writing the file failed",
    "C16": "the name stands for no object here",
    "C17": "there is no such probe",
    "C18": "there is no such stop",
    "C19": "the file is too large",
    "C20": "the innermost call is none of compiled code",
    "C21": "no module in object form defines this function",
    "C22": "no module declares this name at file scope",
}


def help_lines():
    """What `help` shows."""
    width = max(map(len, (*HELP, *OWN_HELP))) + 2
    return [*(f"{it:<{width}}{HELP[it]}" for it in HELP), "", *(f"{it:<{width}}{OWN_HELP[it]}" for it in OWN_HELP)]


def meaning(line, answer):
    """What a refusal of a line means, or nothing for another answer."""
    words = line.split()
    if not answer.startswith("refused "):
        return None
    if answer == "refused C2" and words[0] in ("load", "unload", "swap", "edit", "compile") and words[1:2] and words[1].endswith(".c"):
        return f"C2: {words[0]} takes the name of a module: {' '.join([words[0], words[1][:-2], *words[2:]])}"
    if answer == "refused C2" and words[0] == "print" and len(words) > 1:
        return f"C2: print takes a name alone, and p an expression: p {' '.join(words[1:])}"
    if answer == "refused C1" and words[0] in OTHERS:
        return f"C1: there is no such command; {OTHERS[words[0]]} does that here"
    if answer.startswith("refused C8 ") and words[0] == "swap":
        return f"C8: there is no such file; compile {words[1]}{' fast' if words[2] == 'fast' else ''} writes it"
    code = answer.split()[1]
    return f"{code}: {REFUSALS[code]}" if code in REFUSALS else None
