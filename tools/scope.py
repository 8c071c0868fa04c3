"""The rules of docs/SCOPE.md as a model, for tools/scope-test. Limits, the transform's steps, the double steps of SSIM, the sums of the plain engine and which
candidate is better are taken from the document's own text; the rest is written from it, with no regard to the product."""

import math
import re

MOMENTS = ("mux", "muy", "x2", "xy", "y2", "w")


class Scope:
    """What the document says in numbers and steps."""

    def __init__(self, text):
        find = lambda pattern: re.search(pattern, " ".join(text.split())).groups()
        whole = lambda words: [int(word.replace(",", "")) for word in words]
        self.side, self.stride = whole(find(r"\| 2 \| [^|]* exceeds ([\d,]+) \|") + find(r"\| 4 \| [^|]* exceeds ([\d,]+) \|"))
        self.least = dict(zip(("hvs", "msssim"), whole(find(r"less than (\d+) for HVS, less than (\d+) for MS-SSIM"))))
        self.plane = whole(find(r"if its plane number exceeds (\d+)"))[0]
        self.depths = whole(find(r"byte at depths (\d+) to (\d+) and a word of 16 bits at depths (\d+) to (\d+)"))
        self.fixed = whole(find(r"no caller lends: ([\d ]+),")[0].split())
        self.forward, self.inverse = whole(find(r"Forward takes values from −[\d,]+ to ([\d,]+)") + find(r"inverse takes values from −[\d,]+ to ([\d,]+)"))
        self.places, self.least_place, self.last_place = whole(find(r"D = (\d+) × q \+ k") + find(r"at places (\d+) to (\d+)"))
        self.entry_root, self.entry_unit, self.peak_unit = whole(find(r"10\^\(k/(\d+)\) × 10\^(\d+), rounded down") + find(r"at most P × 10\^(\d+)"))
        self.entries = list(self.roots())
        self.half = whole(find(r"Half a kernel is taps / (\d+), rounded down"))[0]
        self.wins, self.tied = find(r"squared error beside the original is (smaller|larger); on a tie it is the (first|second)")
        self.numbers = {call: whole(re.findall(r"\d+", order)) for call, order in re.findall(r"^\| ([^|]*) \| ([\d ]+(?:, then 9)?) \|$", text, re.M)}
        self.orders = {call: re.findall(r"(\d+)( of the \w+)?", order) for call, order in re.findall(r"^\| (\w+) of rows \| (.*) \|$", text, re.M)}
        self.chart = dict(self.rows(text, "## The chart of kernels"))
        self.passes = self.program(text, "## The transform", "A block of 8 by 8")
        self.centre = self.program(text, "**SSIM.**", "The answer is the pair")
        self.place = self.program(text, "**Plain SSIM.**", "Then come the double steps")

    @staticmethod
    def rows(text, start):
        """Each height of the chart with its kernel, which the table has up to the middle tap."""
        for height, count, half in re.findall(r"^\| ([\d,]+) \| (\d+) \| ([\d ]+) \|$", text[text.index(start) :], re.M):
            taps = [int(word) for word in half.split()]
            if 2 * len(taps) - 1 != int(count):
                raise ValueError(f"height {height}: not {count} taps")
            yield int(height.replace(",", "")), taps + taps[-2::-1]

    @staticmethod
    def program(text, start, end):
        """The steps that stand, further in, between two places of the text: as code."""
        lines = [line.strip() for line in text[text.index(start) : text.index(end)].split("\n") if line.startswith("    ")]
        steps = [step for line in lines for step in re.split(r"\s{2,}", line)]
        if not steps or not all(re.match(r"\w+ = \S", step) for step in steps):
            raise ValueError(f"after {start!r}: a step that is not understood")
        code = "\n".join(steps).replace("×", "*").replace("−", "-")
        code = re.sub(r"\[(\w+) (\d+) (\d+)\]", r"((\1 * \2 + (1 << (\3 - 1))) >> \3)", code)
        return compile(re.sub(r"(\w+)²", r"(\1 * \1)", code), start, "exec")

    def line(self, x):
        """One pass over eight numbers."""
        half = lambda a: a // 2 if a >= 0 else -(-a // 2)
        names = {"half": half, **{f"x{i}": x[i] for i in range(8)}}
        exec(self.passes, names)
        return [names[f"t{i}"] for i in range(8)]

    def transform(self, block):
        for _ in range(2):
            block = [t for i in range(8) for t in self.line(block[i::8])]
        return block

    def refusal(self, wide, depth, width, height, planes, least):
        """The lowest of 1 to 6; planes are pairs of samples and stride."""
        low, high = self.depths[2:] if wide else self.depths[:2]
        visible = lambda plane: (plane[0][y * plane[1] + x] for y in range(height) for x in range(width))
        tests = [
            lambda: low <= depth <= high,
            lambda: 1 <= width <= self.side and 1 <= height <= self.side,
            lambda: least <= width and least <= height,
            lambda: all(width <= stride <= self.stride for _, stride in planes),
            lambda: all(stride * (height - 1) + width <= len(samples) for samples, stride in planes),
            lambda: all(sample <= 2**depth - 1 for plane in planes for sample in visible(plane)),
        ]
        return next((number for number, test in enumerate(tests, 1) if not test()), 0)

    def better(self, wide, depth, width, height, planes):
        """Of an original and two candidates the answer, which of the two and its error or a refusal, and what is handed back."""
        number = self.refusal(wide, depth, width, height, planes, 0)
        if number:
            return number, []
        errors = [squared(planes[0], candidate, width, height) for candidate in planes[1:]]
        which = self.tied
        if errors[0] != errors[1]:
            which = "first" if (errors[0] < errors[1]) == (self.wins == "smaller") else "second"
        place = ("first", "second").index(which)
        return (which, float(errors[place])), planes[1 + place][0]

    def series(self, records):
        """0 where records of these frames and planes rise, else 10."""
        rise = all(one < other for one, other in zip(records, records[1:]))
        return 0 if rise and all(plane <= self.plane for _, plane in records) else 10

    def roots(self):
        """The chart of decibels, each place with its entry: they go up, so that each is looked for from the one before."""
        entry = 10**self.entry_unit
        for k in range(self.least_place, self.last_place + 1):
            power = 10 ** (self.entry_root * self.entry_unit + k)
            step = entry
            while step:
                entry, step = (entry + step, step) if (entry + step) ** self.entry_root <= power else (entry, step // 2)
            yield k, entry

    def hundredths(self, error, n, sample_max):
        """D of an error that is not 0."""
        peak, q = sample_max**2 * n, 0
        while 10 ** (q + 1) * error <= peak:
            q += 1
        fitting = (k for k, entry in self.entries if entry * 10**q * error <= peak * 10**self.peak_unit)
        return self.places * q + max(fitting)

    def ssim(self, a, b, width, height, sample_max, kernel):
        """The pair; a and b are samples by row and column."""
        now = start(sample_max)
        for y in range(height):
            self.row(now, a, b, width, height, kernel, y)
        return pair(now)

    def row(self, now, a, b, width, height, kernel, y):
        """One row of centres more."""
        for x in range(width):
            sums = moments(a, b, width, height, kernel, x, y)
            now.update(zip(MOMENTS, map(float, sums)))
            exec(self.centre, now)

    def plain(self, a, b, width, height, sample_max, kernel):
        """The pair of the plain engine."""
        now = start(sample_max)
        for y in range(height):
            for x in range(width):
                now.update({name: float(total) for name, total in self.window(a, b, width, height, kernel, x, y).items()})
                exec(self.centre, now)
        return pair(now)

    def window(self, a, b, width, height, kernel, x, y):
        """The six sums of one centre, place by place, as the document adds them up."""
        sums, half = dict.fromkeys(MOMENTS, 0), len(kernel) // 2
        for i, p in enumerate(kernel):
            for j, q in enumerate(kernel):
                r, c = y + i - half, x + j - half
                if 0 <= r < height and 0 <= c < width:
                    sums.update(p=p, q=q, a=a(r, c), b=b(r, c))
                    exec(self.place, {}, sums)
        return {name: sums[name] for name in MOMENTS}

    def scored(self, rows, height, taps):
        """How many rows of centres are scored once so many have come."""
        return height if rows == height else max(0, rows - taps // self.half)

    def fed(self, a, b, width, height, sample_max, kernel):
        """The pair of rows that come one by one, the last L kept; None where a row was wanted that had not come, or was no longer there."""
        now, kept, done = start(sample_max), {}, 0
        first, second = (lambda r, c, i=i: kept[r][i][c] for i in (0, 1))
        for row in range(height):
            kept[row] = [[plane(row, c) for c in range(width)] for plane in (a, b)]
            kept.pop(row - lines(len(kernel)), None)
            upto = self.scored(row + 1, height, len(kernel))
            try:
                for y in range(done, upto):
                    self.row(now, first, second, width, height, kernel, y)
            except KeyError:
                return None
            done = upto
        return pair(now)

    def judged(self, call, broken):
        """The number that a call of rows gives where these of its tests fail."""
        return next(int(number) for number, whose in self.orders[call] if number + whose in broken)

    def scales(self, a, b, width, height, sample_max):
        """The pairs of five scales, one after another."""
        told = []
        for _ in range(5):
            told += self.ssim(a, b, width, height, sample_max, self.fixed)
            a, b = below(a), below(b)
            width, height, sample_max = width // 2, height // 2, 4 * sample_max
        return told

    def hvs(self, a, b, width, height, sample_max, csf):
        mask = [(c * 0.3885746225901003) * (c * 0.3885746225901003) for c in csf]
        total, blocks = 0.0, 0
        for top in range(0, height - 7, 7):
            for left in range(0, width - 7, 7):
                pair = [[plane(top + k // 8, left + k % 8) for k in range(64)] for plane in (a, b)]
                coefficients = [self.transform(block) for block in pair]
                masks = [block_mask(block, c, mask) for block, c in zip(pair, coefficients)]
                for k in range(64):
                    err = float(abs(coefficients[0][k] - coefficients[1][k]))
                    hidden = max(masks) / mask[k]
                    err = err if k == 0 else 0.0 if err < hidden else err - hidden
                    total += (err * csf[k]) * (err * csf[k])
                blocks += 1
        return total / (64 * blocks) / sample_max**2


def lawful(kernel):
    odd = len(kernel) % 2 == 1 and len(kernel) <= 255
    weighed = all(0 <= tap <= 256 for tap in kernel) and sum(kernel) == 256
    return odd and weighed and kernel == kernel[::-1] and kernel[len(kernel) // 2] >= 1 and (len(kernel) == 1 or kernel[0] >= 1)


def lines(taps):
    """L: the smallest power of two that is at least the count of taps."""
    return 1 << (taps - 1).bit_length()


def scratch(width, taps):
    return 6 * width * lines(taps)


def start(sample_max):
    return {"cs": 0.0, "ssim": 0.0, "ssimw": 0.0, "sample_max": sample_max}


def pair(now):
    return now["ssim"] / now["ssimw"], now["cs"] / now["ssimw"]


def squared(a, b, width, height):
    """The squared error of two planes, each samples and stride."""
    return sum((a[0][r * a[1] + c] - b[0][r * b[1] + c]) ** 2 for r in range(height) for c in range(width))


def moments(a, b, width, height, kernel, x, y):
    """mux, muy, x2, xy, y2 and w at a centre."""
    sums, off = [0] * 6, len(kernel) // 2
    for i in range(max(0, off - y), min(len(kernel), height + off - y)):
        for j in range(max(0, off - x), min(len(kernel), width + off - x)):
            p, q = a(y + i - off, x + j - off), b(y + i - off, x + j - off)
            for m, quantity in enumerate((p, q, p * p, p * q, q * q, 1)):
                sums[m] += kernel[i] * kernel[j] * quantity
    return sums


def below(plane):
    """The samples of the next scale, each worked out once."""
    known = {}

    def sample(r, c):
        if (r, c) not in known:
            known[r, c] = sum(plane(2 * r + i, 2 * c + j) for i in (0, 1) for j in (0, 1))
        return known[r, c]

    return sample


def variance(samples, whole, less):
    mean = sum(map(float, samples)) / whole
    spread = 0.0
    for sample in samples:
        spread += (sample - mean) * (sample - mean)
    return spread * (whole / less)


def block_mask(block, coefficients, mask):
    quarter = lambda top, left: [block[8 * (top + k // 4) + left + k % 4] for k in range(16)]
    gvar = variance(block, 64.0, 63.0)
    four = 0.0
    for top, left in ((0, 0), (4, 0), (0, 4), (4, 4)):
        four += variance(quarter(top, left), 16.0, 15.0)
    energy = 0.0
    for k in range(1, 64):
        energy += float(coefficients[k] * coefficients[k]) * mask[k]
    return root(energy * (four / gvar if gvar > 0.0 else gvar)) / 32.0


def root(x):
    """The double nearest the exact root, by squares of whole numbers; None where it is refused."""
    if math.isnan(x) or math.isinf(x) or x < 0 or math.copysign(1.0, x) < 0:
        return None
    if x == 0:
        return 0.0
    over, under = x.as_integer_ratio()
    shift = max(0, 128 - over.bit_length() + under.bit_length())
    shift += shift % 2
    # 53 digits of it, and whether the exact root lies past the middle between two doubles, which it never hits
    wide = math.isqrt((over << shift) // under)
    extra = wide.bit_length() - 53
    digits = (wide >> extra) + (wide >> (extra - 1) & 1)
    return math.ldexp(digits, extra - shift // 2)
