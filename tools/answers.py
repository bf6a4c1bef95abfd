"""What tools/plot and tools/rows share: the answers of a bench read from standard input, and what a job says of the rows that it prints."""
import argparse, math, re, signal, struct, sys


class Bad(Exception):
    """Why nothing is made, as a sentence."""


class Words(argparse.ArgumentParser):
    """The words of a command line. Those that cannot be read are answered by a sentence and status 1, as all else that is wrong."""

    def __init__(self, about, does, done):
        super().__init__(description=about, formatter_class=argparse.RawDescriptionHelpFormatter, allow_abbrev=False)
        self.set_defaults(prog=self.prog, does=does, done=done)
        self.add_argument('--job', metavar='JOB', help="the job whose answers these are: the channels' names and the rate come from it")
        self.add_argument('--rate', metavar='HZ', type=rate, help='samples a second, whatever the job says')
        self.add_argument('--print', metavar='K', type=whole, help='the K-th print of the answers, from 1')
        self.add_argument('--from', metavar='A', type=whole, default=0, dest='first', help='only from sample A on, counted from 0')
        self.add_argument('--to', metavar='B', type=whole, default=math.inf, dest='last', help='only up to sample B, which is the last one')
        self.add_argument('--anyway', action='store_true', help='even if the answers have a line `refused` or `syntax`')

    def error(self, message):
        sys.exit(f'{self.prog}: {message} ({self.prog} --help says what there is)')


def rate(word):
    try:
        if 0 < float(word) < math.inf:
            return float(word)
    except ValueError:
        pass
    raise argparse.ArgumentTypeError(f"'{word}' is no number above 0")


def whole(word):
    if re.fullmatch('[0-9]{1,15}', word):
        return int(word)
    raise argparse.ArgumentTypeError(f"'{word}' is no whole number")


class Print:
    """One print: its rows, I or I and Q, and where the job is known the channels that were sampled onto them and their rate."""

    def __init__(self, number):
        self.number, self.rows, self.names, self.rate = number, [], [], None

    def size(self):
        return len(self.rows), len(self.rows[0])

    def part(self, first, last):
        """The numbers of the samples from the first to the last, both counted, as far as there are any."""
        return range(first, int(min(last + 1, len(self.rows[0]))))


def asked(words, lines):
    """The prints that the words ask for."""
    found, undone = prints(lines)
    if undone and not words.anyway:
        raise Bad(f'{undone}: nothing is {words.done} (--anyway {words.does} what there is)')
    if words.job and undone:
        print(f'{words.prog}: {undone}, so that names and rate are not taken from {words.job}', file=sys.stderr)
    elif words.job:
        learn(found, words.job)
    if words.rate:
        for one in found:
            one.rate = words.rate
    if not found:
        raise Bad('the answers have no row: a job prints its rows by a line `print`')
    if words.print is None:
        return found
    if not 1 <= words.print <= len(found):
        raise Bad(f'there is no print {words.print}: the answers have {len(found)}')
    return [found[words.print - 1]]


def prints(lines):
    """All prints, and the first line that says that something was not done."""
    found, undone, number = [], None, 0
    for number, line in enumerate(lines, 1):
        words = line.split()
        if words[:1] in (['refused'], ['syntax']):
            undone = undone or f"line {number} of the answers is '{' '.join(words)}'"
        elif words[:1] == ['row']:
            if not line.endswith('\n'):
                raise Bad(f'line {number} of the answers, a row, has no end: something has stopped in the middle of it')
            take(found, words, number)
    if number == 0:
        raise Bad('there are no answers on standard input')
    return found, undone


def take(found, words, number):
    """One row: the first of a print, or the second one of the last print."""
    if words[1:2] == ['1']:
        found.append(Print(len(found) + 1))
    elif words[1:2] != ['2'] or not found or len(found[-1].rows) != 1:
        raise Bad(f"line {number} of the answers is a row out of turn: '{' '.join(words[:3])} ..'")
    for word in words[2:]:
        if not re.fullmatch('[0-9a-f]{16}', word):
            raise Bad(f"line {number} of the answers has '{word[:40]}' among its samples, which are 16 hex digits each")
    rows = found[-1].rows
    rows.append(struct.unpack(f'>{len(words) - 2}d', bytes.fromhex(''.join(words[2:]))))
    if len(rows[-1]) != len(rows[0]):
        raise Bad(f'line {number} of the answers has {len(rows[-1])} samples, and the row before it {len(rows[0])}')


def learn(found, job):
    """Gives each print what the job says of it."""
    told = list(samplings(job))
    if len(told) != len(found):
        raise Bad(f'these are not the answers to {job}: it has {count(len(told), "print")}, and they have {len(found)}')
    for one, (size, names, rates) in zip(found, told):
        if one.size() != size:
            raise Bad(f'these are not the answers to {job}: its print {one.number} is of {say(size)}, and theirs of {say(one.size())}')
        one.names = list(dict.fromkeys(names))
        if len(set(rates)) == 1 and 0 < rates[0] < math.inf:
            one.rate = rates[0]


def say(size):
    return f'{count(size[0], "row")} of {count(size[1], "sample")}'


def count(number, what):
    return f'{number} {what}{"s" * (number != 1)}'


def samplings(job):
    """For each `print` of a job: how many rows there are and how long, and the channels and rates that were sampled since `rows`."""
    try:
        with open(job, encoding='utf-8', errors='replace') as file:
            lines = file.read().split('\n')
    except OSError as error:
        raise Bad(f'{job} cannot be read: {error.strerror}')
    if lines[-1] == '':
        lines.pop()
    size, names, rates, at = (1, 0), (), (), 0
    while at < len(lines):
        words = lines[at].split()
        at += 1
        try:
            if words[:1] == ['sheet'] and at + int(words[1]) <= len(lines):
                at += int(words[1])
            elif words[:1] == ['rows']:
                size, names, rates = (int(words[1]), int(words[2])), (), ()
            elif words[:1] == ['sample']:
                names += words[1],
                rates += tuple(double(word[5:]) for word in words[2:] if word.startswith('rate='))
            elif words == ['print']:
                yield size, names, rates
        except (IndexError, ValueError):
            raise Bad(f"line {at} of {job} cannot be read: '{' '.join(words)[:80]}'")


def double(word):
    """A job's number: 16 hex digits are a double's bits, `0x` begins a hex float, anything else is a decimal."""
    if re.fullmatch('[0-9a-f]{16}', word):
        return struct.unpack('>d', bytes.fromhex(word))[0]
    return float.fromhex(word) if 'x' in word.lower() else float(word)


def run(words, make):
    """Carries out a command over standard input. What is wrong is one sentence and status 1."""
    signal.signal(signal.SIGINT, signal.SIG_DFL)
    if not sys.stdin or not sys.stdout:
        sys.exit(f'{words.prog}: standard input or output is closed')
    if sys.stdin.isatty():
        sys.exit(f"{words.prog}: a bench's answers belong on standard input, as {words.prog} --help shows")
    sys.stdin.reconfigure(encoding='utf-8', errors='replace')
    sys.stdout.reconfigure(encoding='utf-8')
    try:
        make(words, asked(words, sys.stdin))
        sys.stdout.flush()
    except Bad as bad:
        sys.exit(f'{words.prog}: {bad}')
    except BrokenPipeError:  # whoever reads has stopped
        sys.stderr.close()
        sys.exit(1)
    except OSError as error:
        print(f'{words.prog}: {error.filename or "what is written"}: {error.strerror}', file=sys.stderr)
        sys.stderr.close()
        sys.exit(1)
