"""What the commands say of themselves: mpw help finds a reply by the whole line, by its number and by its word, and it lists no word
twice. Help goes to the standard output, but that of `mpw script` and `mpw serve` to the standard error, with the status of a wrong
command line. A command line that is wrong and an output that takes nothing have their exit statuses.
"""
import os
import subprocess

MPW = os.path.join(os.path.dirname(os.path.dirname(os.path.abspath(__file__))), "mpw")
COMMANDS = ["mpw script", "mpw serve", "mpw check", "mpw stitch", "mpw trail", "mpw store", "mpw help", "mpw build", "mpw install"]
# Of the officer's token abc.
DIGEST = "ba7816bf8f01cfea414140de5dae2223b00361a396177a9cb410ff61f20015ad"


def run(*words):
    ended = subprocess.run([MPW, *words], stdin=subprocess.DEVNULL, stdout=subprocess.PIPE, stderr=subprocess.PIPE)
    return ended.returncode, ended.stdout.decode(), ended.stderr.decode()


def is_found():
    """`REFUSED 40 form` by each of its forms."""
    forms = [["REFUSED 40 form"], ["REFUSED", "40", "form"], ["REFUSED 40"], ["40 form"], ["40"], ["form"]]
    told = {form: run("help", *words) for form, words in ((" ".join(words), words) for words in forms)}
    return [f"{form}: {found}" for form, found in told.items() if found[0] != 0 or not found[1].startswith("REFUSED 40 form\n") or found[2]]


def is_listed_once():
    status, printed, _ = run("help")
    words = [word for line in printed.splitlines() for word in line.partition(":")[2].split()]
    twice = sorted({word for word in words if words.count(word) > 1})
    lacking = [word for word in ("shapes", "form", "submit", "stitch", "login") if word not in words]
    return [f"status {status}, twice {twice}, lacking {lacking}"] if status or twice or lacking else []


def is_helped(*words, wanted):
    status, printed, told = run(*words)
    lacking = [text for text in wanted if text not in printed]
    return [f"status {status}, lacking {lacking}, told {told!r}"] if status or lacking or told else []


def is_refused(*words, wanted=()):
    """A fault of the command line: status 2, a sentence, and no reply."""
    status, printed, fault = run(*words)
    lacking = [text for text in wanted if text not in fault]
    return [f"status {status}, printed {printed!r}, {fault!r}"] if (status, printed) != (2, "") or not fault or lacking else []


def ends_on_a_full_device():
    """An output that takes nothing: status 3, and a sentence."""
    words = [MPW, "script", "--officer", "root", "--digest", DIGEST]
    with open("/dev/full", "wb") as full:
        ended = subprocess.run(words, input=b"open root abc\n", stdout=full, stderr=subprocess.PIPE)
    return [] if ended.returncode == 3 and ended.stderr else [f"status {ended.returncode}, {ended.stderr!r}"]


CASES = {
    "a digest of eight digits": lambda: is_refused("script", "--officer", "root", "--digest", "ba7816bf"),
    "an option that no script has": lambda: is_refused("script", "--officer", "root", "--digest", DIGEST, "--tile", "1"),
    "a device that is full": ends_on_a_full_device,

    "help of a line of the desk": is_found,
    "the words of help": is_listed_once,
    "help of all commands": lambda: is_helped("--help", wanted=COMMANDS),
    "help of script": lambda: is_refused("script", "--help", wanted=["--officer", "--digest"]),
    "help of script by one letter": lambda: is_refused("script", "-h", wanted=["--officer", "--digest"]),
    "help of check": lambda: is_helped("check", "--help", wanted=["--deck", "--top", "--strict"]),
}
