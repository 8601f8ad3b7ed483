"""Site parameters on plain values: their ranges, what they alter, each operation with them, and refusals 35 and 36."""

import random
import unittest

import ramyearly
from ramyearly import archive, calls, operations, tables
from ramyearly.calls import Call
from ramyearly.parameters import Parameters
from definitions import altered_by_definition, random_jobs, random_levels, refused_by_definition, running_by_definition, spans_of
from faults import TABLE_FAULTS, jobs_of, levels_of, plan_of
from support import PAIR, PLAN, PRICES, TWO_JOBS

T = [(2, 10), (4, 20)]
IDLE = [(0, 0), *T]
JOBS = [(0, 4, 6), (2, 3, 4)]
FIVE = [(300, 140), (350, 150), (400, 160), (450, 170), (500, 180)]
MOST = 2**32 - 1

SOUND = Call(PAIR, TWO_JOBS, tables.NO_MARKS, PLAN, PRICES, length=1, load=2, start=0, end=4)
# Each operation that takes parameters, on a call.
OPERATIONS = {
    "plan": lambda call: operations.plan_tables(*call[:3], call.parameters),
    "check": lambda call: operations.check_tables(*call[:5], call.parameters),
    "fits": lambda call: operations.fits_tables(*call[:4], call.parameters),
    "order": lambda call: operations.order_tables(*call[:5], call.parameters),
    "spans": lambda call: operations.spans_of_tables(*call[:3], call.parameters),
    "spare": lambda call: operations.spare_of(call.levels, call.jobs, call.start, call.end, call.parameters),
    "nearest": lambda call: operations.nearest_of(call.levels, call.jobs, call.parameters),
    "touching": lambda call: operations.touching_tables(*call[1:4], call.start, call.end, call.parameters),
    "setting": lambda call: operations.setting_of(call.levels, call.length, call.load, call.parameters),
    "working frequencies": lambda call: operations.working_frequencies_of(call.levels, call.parameters),
}
# The parameters that each takes, and of the tables those that it reads.
TAKEN = dict.fromkeys(OPERATIONS, {"highest", "free", "margin"})
TAKEN |= {"touching": {"free", "margin"}, "setting": {"highest"}, "working frequencies": {"highest"}}
READ = dict.fromkeys(OPERATIONS, {"levels", "jobs", "marks"})
READ |= dict.fromkeys(("spare", "nearest"), {"levels", "jobs"})
READ |= {"touching": {"jobs", "marks"}, "setting": {"levels"}, "working frequencies": {"levels"}}


def answer_of(name, call):
    """What an operation answers, or number and place of the refusal, with the window of an overfull one."""
    try:
        return OPERATIONS[name](call)
    except ramyearly.Refused as refusal:
        window = (refusal.start, refusal.end, refusal.spare, refusal.inside) if refusal.number == 11 else ()
        return "refused", refusal.number, refusal.place, *window


def numbered(answer):
    """Number and place of a refusal; zeros of another answer."""
    return answer[1:3] if isinstance(answer, tuple) and answer[:1] == ("refused",) else (0, 0)


def refused(name, call):
    return numbered(answer_of(name, call))


def lent(levels, jobs, highest=None, free=0, margin=0, **others):
    return SOUND._replace(**levels_of(*levels), **jobs_of(*jobs), parameters=Parameters(highest, free, margin), **others)


class Ranges(unittest.TestCase):
    """Refusal 35, of each parameter that an operation takes and of no other."""

    def test_each_end(self):
        for levels, running in ((T, 2), (IDLE, 2), (T[:1], 1), (IDLE[:2], 1), (FIVE, 5), ([(0, 1), *FIVE], 5)):
            for field, good, bad in (
                ("highest", (1, running), (0, running + 1, running + 2, MOST)),
                ("free", (0, 1_000_000), (1_000_001, MOST)),
                ("margin", (0, 1, 100), (101, MOST)),
            ):
                for name, taken in TAKEN.items():
                    for number in good:
                        self.assertNotEqual(refused(name, lent(levels, JOBS, **{field: number}))[0], 35)
                    for number in bad if field in taken else ():
                        self.assertEqual(refused(name, lent(levels, JOBS, **{field: number})), (35, 0))

    def test_also_where_nothing_is_altered(self):
        """Without jobs there is no deadline and there are no cycles. A parameter has its range all the same."""
        none = {"plan": operations.plan_table(0, []), "prices": b"\0\0"}
        for name, taken in TAKEN.items():
            given = {"highest": 1, "free": 1_000_000, "margin": 100}
            self.assertEqual(refused(name, lent(T, [], **given, **none)), (0, 0))
            for field, number in (("highest", 3), ("free", 1_000_001), ("margin", 101)):
                found = refused(name, lent(T, [], **{**given, field: number}, **none))
                self.assertEqual(found, (35, 0) if field in taken else (0, 0))

    def test_after_the_tables(self):
        """Levels, jobs and marks that are read are refused before; a span that is asked about before all of them."""
        bad = Parameters(9, MOST, MOST)
        for number, fault in {**TABLE_FAULTS, 34: {"marks": operations.mark_table([3, 3])}}.items():
            (field,) = fault
            for name, read in READ.items():
                found = refused(name, SOUND._replace(**fault, parameters=bad))
                self.assertEqual(found[0], number if field in read else 35)
                # The same where no number is wrong.
                if field in read:
                    self.assertEqual(found, refused(name, SOUND._replace(**fault)))
        for span in ({"start": 4}, {"end": 1_000_001}):
            self.assertEqual(refused("touching", SOUND._replace(**span, parameters=bad)), (33, 0))
            self.assertEqual(refused("spare", SOUND._replace(**span, parameters=bad)), (35, 0))
            self.assertEqual(refused("spare", SOUND._replace(**span, parameters=Parameters(free=1))), (36, 1))

    def test_before_the_rest(self):
        """Also 36: before an overfull window, a plan, prices, a length, a load and a window that are refused."""
        faults = (
            jobs_of((0, 1, 5), (2, 3, 4)),
            *({"plan": plan} for plan in (b"", PLAN[:-1], plan_of()["plan"])),
            *({"prices": prices} for prices in (b"", PRICES[:-1])),
            *({"length": length} for length in (0, 1_000_001)),
            {"load": 5},
            {"end": 0},
        )
        for fault in faults:
            for name, taken in TAKEN.items():
                if "end" in fault and name == "touching":
                    continue
                for field, number in (("highest", 0), ("free", 1_000_001), ("margin", 101)):
                    if field in taken:
                        call = SOUND._replace(**fault, parameters=Parameters(**{field: number}))
                        self.assertEqual(refused(name, call), (35, 0))
                        # 35 before 36.
                        empties = {"free": 4, "highest": 1, **{field: number}}
                        self.assertEqual(refused(name, call._replace(parameters=Parameters(**empties))), (35, 0))
                if "free" in taken:
                    first = 0 if "jobs" in fault else 1
                    self.assertEqual(refused(name, SOUND._replace(**fault, parameters=Parameters(free=1))), (36, first))

    def test_values_without_room(self):
        for field, functions in (
            ("highest", (ramyearly.setting, ramyearly.working_frequencies)),
            ("free", (ramyearly.touching,)),
            ("margin", (ramyearly.touching,)),
        ):
            values = {ramyearly.setting: (T, 1, 1), ramyearly.working_frequencies: (T,)}
            values |= {ramyearly.touching: (JOBS, (3, []), 0, 4), ramyearly.plan: (T, JOBS), ramyearly.spare: (T, JOBS, 0, 4), ramyearly.fits: (T, JOBS, (3, []))}
            values |= dict.fromkeys((ramyearly.check, ramyearly.order), (T, JOBS, [], [])) | {ramyearly.nearest: (T, JOBS)}
            common = (ramyearly.plan, ramyearly.check, ramyearly.fits, ramyearly.order, ramyearly.spare, ramyearly.nearest)
            for function in (*functions, *common):
                for number in (-1, 2**32):
                    with self.assertRaises(ValueError) as caught:
                        function(*values[function], **{field: number})
                    self.assertEqual(str(caught.exception), f"{field} {number} does not fit in 32 bits (0 to 4294967295)")
                self.assertRaises(TypeError, function, *values[function], **{field: "1"})
        # Those that do not bear on its tables a function does not take.
        self.assertRaises(TypeError, ramyearly.setting, T, 1, 1, free=0)
        self.assertRaises(TypeError, ramyearly.touching, JOBS, (3, []), 0, 4, highest=1)
        self.assertRaises(TypeError, ramyearly.rounds, [], margin=0)


class Altered(unittest.TestCase):
    """Refusal 36, and what the parameters make of tables."""

    def test_windows(self):
        jobs = [(0, 10, 1), (5, 9, 1), (7, 20, 1)]
        for free, place in ((0, None), (3, None), (4, 1), (9, 1), (10, 0), (11, 0), (10**6, 0)):
            expected = (0, 0) if place is None else (36, place)
            for name in ("plan", "spans", "spare"):
                self.assertEqual(refused(name, lent(T, jobs, free=free)), expected)
        # One tick is left, in the last place too.
        self.assertEqual(refused("plan", lent(T, [(999_999, 1_000_000, 1)], free=1)), (36, 0))
        self.assertEqual(ramyearly.plan(T, [(0, 1_000_000, 1)], free=999_999).spans, [(0, 1)])
        self.assertEqual(ramyearly.plan(T, [(3, 13, 1)], free=9).spans, [(3, 4)])

    def test_cycles(self):
        for cycles, margin, place in (
            (10**9, 0, None),
            (10**9, 1, 1),
            (500_000_000, 100, None),
            (500_000_001, 100, 1),
            # 990,099,009 and 9,900,990.09, rounded up, are the limit.
            (990_099_009, 1, None),
            (990_099_010, 1, 1),
            (999_999_999, 1, 1),
        ):
            jobs = [(0, 10**6, 1), (0, 10**6, cycles)]
            expected = (0, 0) if place is None else (36, place)
            self.assertEqual(refused("spare", lent([(1000, 1)], jobs, margin=margin, end=10**6)), expected)
            self.assertEqual(refused_by_definition([(1000, 1)], jobs, 1, 0, margin), expected)

    def test_rounded_up_by_job(self):
        """Two jobs of one cycle at one percent are 2 and 2, not 3 in all."""
        for margin, each in ((0, 1), (1, 2), (99, 2), (100, 2)):
            self.assertEqual(ramyearly.plan(T, [(0, 2, 1), (0, 2, 1)], margin=margin).shares, [[each, each]])
            self.assertEqual(ramyearly.spare(T, [(0, 2, 1), (0, 2, 1)], 0, 2, margin=margin), 8 - 2 * each)
        # Exact percents put nothing more on.
        self.assertEqual(ramyearly.plan(FIVE, [(0, 2, 100), (0, 2, 200), (0, 2, 101)], margin=7).shares, [[107, 214, 109]])

    def test_the_first_job(self):
        """By job, an emptied window or too many cycles, whichever stands first."""
        for jobs, place in (
            ([(0, 9, 1), (0, 9, 10**9), (0, 2, 1)], 1),
            ([(0, 9, 1), (0, 2, 1), (0, 9, 10**9)], 1),
            ([(0, 2, 10**9), (0, 2, 1)], 0),
            ([(0, 9, 1)] * 63 + [(0, 2, 1)], 63),
        ):
            for name in ("plan", "spare", "spans"):
                self.assertEqual(refused(name, lent([(1000, 1)], jobs, free=2, margin=1)), (36, place))

    def test_highest(self):
        """The top frequency, what works, bands and settings follow it. The idle entry stays and does not count."""
        for levels in (FIVE, [(0, 1), *FIVE]):
            for highest in range(1, 6):
                top = FIVE[highest - 1][0]
                self.assertEqual(ramyearly.spare(levels, [], 0, 1, highest=highest), top)
                self.assertEqual(ramyearly.working_frequencies(levels, highest=highest), [f for f, _ in FIVE[:highest]])
                self.assertEqual(ramyearly.setting(levels, 1, top, highest=highest).band, highest)
                with self.assertRaises(ramyearly.Refused) as caught:
                    ramyearly.setting(levels, 1, top + 1, highest=highest)
                self.assertEqual(caught.exception.number, 26)
                self.assertEqual(ramyearly.plan(levels, [(0, 1, top)], highest=highest).prices, [(1, highest)])
                with self.assertRaises(ramyearly.Overfull) as caught:
                    ramyearly.plan(levels, [(0, 1, top + 1)], highest=highest)
                self.assertEqual(caught.exception.spare, -1)
        # A level that a higher one drops works where that one is not allowed.
        levels = [(100, 10), (110, 20), (300, 21)]
        self.assertEqual(ramyearly.working_frequencies(levels), [100, 300])
        self.assertEqual(ramyearly.working_frequencies(levels, highest=2), [100, 110])
        self.assertEqual(ramyearly.plan(levels, [(0, 1, 105)]).energy, 13_057)
        self.assertEqual(ramyearly.plan(levels, [(0, 1, 105)], highest=2).energy, 27_000)

    def test_free_ticks_and_marks(self):
        """Deadlines move, releases and marks do not: a mark at the altered latest deadline has no effect."""
        jobs = [(0, 14, 6), (2, 13, 4)]
        self.assertEqual(ramyearly.plan(T, jobs, marks=[4, 5], free=10).spans, [(0, 2), (2, 3), (3, 4)])
        self.assertEqual(ramyearly.plan(T, jobs, marks=[4, 5], free=9).spans, [(0, 2), (2, 4), (4, 5)])
        self.assertEqual(ramyearly.plan(T, jobs, marks=[4, 5]).spans, [(0, 2), (2, 4), (4, 5), (5, 13), (13, 14)])
        touched = ramyearly.touching(jobs, (3, [(0, 0, 4), (1, 1, 4), (2, 0, 2)]), 2, 3, free=10)
        self.assertEqual(touched, ([0, 1], [1], [(1, 1, 4)], [(0, 2), (2, 3), (3, 4)], 3))
        # The plan of document 01's site, which is what comes out.
        self.assertEqual(ramyearly.plan(T, jobs, free=10), ramyearly.plan(T, JOBS))

    def test_tables_by_definition(self):
        """What the archive is asked for where words and pages speak of altered tables."""
        draw = random.Random(11)
        for _ in range(200):
            jobs, levels, numbers = random_site(draw)
            if refused_by_definition(levels, jobs, *numbers) == (0, 0):
                call = calls.altered(lent(levels, jobs, *numbers))
                found = tables.entries_of(call.levels, tables.LEVELS), tables.entries_of(call.jobs, tables.JOBS)
                self.assertEqual(found, altered_by_definition(levels, jobs, *numbers))
        extremes = [(0, 10**6, 10**9 // 2), (999_997, 10**6, 1), (0, 3, 333_333_333)]
        call = calls.altered(lent(FIVE, extremes, 2, 2, 100))
        expected = [(0, 999_998, 10**9), (999_997, 999_998, 2), (0, 1, 666_666_666)]
        self.assertEqual(tables.entries_of(call.jobs, tables.JOBS), expected)


def random_site(draw):
    """Jobs, levels and three numbers, most of them in range."""
    levels = random_levels(draw, draw.randint(1, 7))[draw.randrange(2) :]
    running = running_by_definition(levels)
    highest = draw.choice((running, draw.randint(1, running), draw.randint(0, running + 1)))
    free = draw.choice((0, draw.randrange(4), draw.randrange(12), 10**6 + draw.randrange(2)))
    margin = draw.choice((0, draw.randrange(101), draw.randrange(98, 103)))
    return random_jobs(draw), levels, (highest, free, margin)


class AsAlteredByHand(unittest.TestCase):
    """Every operation answers, or refuses, as it does for tables that were altered before."""

    def test_every_operation(self):
        draw, found = random.Random(12), {}
        for _ in range(600):
            jobs, levels, numbers = random_site(draw)
            if draw.random() < 0.5:
                # Frequencies that some windows need more than.
                levels = [(0, 0), *((draw.randint(least, least + 25), 10) for least in (1, 30, 60))][draw.randrange(2) :]
                numbers = draw.randint(1, 3), *numbers[1:]
            marks = operations.mark_table(sorted(draw.sample(range(42), draw.randrange(4))))
            others = {"marks": marks, "start": draw.randrange(20), "end": draw.randint(20, 45), "load": draw.randrange(400)}
            refusal = refused_by_definition(levels, jobs, *numbers)
            call = with_plan(lent(levels, jobs, *numbers, **others))
            for name, taken in TAKEN.items():
                answer = answer_of(name, call)
                if refusal == (0, 0):
                    by_hand = lent(*altered_by_definition(levels, jobs, *numbers), **others, plan=call.plan, prices=call.prices)
                    self.assertEqual(answer, answer_of(name, by_hand))
                elif len(taken) == 3:
                    self.assertEqual(numbered(answer), refusal)
                found[name, numbered(answer)[0]] = found.get((name, numbered(answer)[0]), 0) + 1
        for name, taken in TAKEN.items():
            for number in (0, 35, *([36] if "free" in taken else [])):
                self.assertGreater(found[name, number], 20)

    def test_nothing_altered(self):
        """All running levels with 0 and 0 are what is left out, and give the same answers, bytes and refusals."""
        draw = random.Random(13)
        for _ in range(200):
            jobs, levels, _ = random_site(draw)
            call = with_plan(lent(levels, jobs))
            all_running = call._replace(parameters=Parameters(running_by_definition(levels), 0, 0))
            for name in OPERATIONS:
                self.assertEqual(answer_of(name, call), answer_of(name, all_running))
        self.assertEqual(ramyearly.plan(T, JOBS, highest=2, free=0, margin=0).plan_bytes, PLAN)

    def test_damaged_tables(self):
        """Bytes of any content and any three numbers: 35 exactly where no table is refused and a number is out of range."""
        draw, found = random.Random(14), {}
        for _ in range(3000):
            changed = [bytearray(table) for table in (PAIR, TWO_JOBS, operations.mark_table([2]))]
            if draw.random() < 0.7:
                table = draw.choice(changed)
                table[draw.randrange(len(table))] = draw.choice((0, 1, 2, 3, 4, 64, draw.randrange(256)))
            given = tuple(map(bytes, changed))
            numbers = Parameters(*(draw.choice((0, 1, 2, 3, draw.randrange(2**32))) for _ in range(3)))
            sound = archive.fits(*given, PLAN).number in (0, *range(15, 21))
            answer = archive.fits(*given, PLAN, numbers)
            if sound:
                entries = (tables.entries_of(data, table) for data, table in zip(given, (tables.LEVELS, tables.JOBS)))
                expected = refused_by_definition(*entries, *numbers)
                if expected != (0, 0):
                    self.assertEqual((answer.number, answer.place), expected)
                self.assertEqual(answer.number in (35, 36), expected != (0, 0))
            else:
                before = archive.fits(*given, PLAN)
                self.assertEqual((answer.number, answer.place), (before.number, before.place))
            found[answer.number] = found.get(answer.number, 0) + 1
        self.assertGreater(min(found[35], found[36]), 100)


def with_plan(call):
    """The call with a plan made for it, or with the one of document 01's site where none comes out."""
    try:
        planned = operations.plan_tables(*call[:3], call.parameters)
    except ramyearly.Refused:
        return call
    return call._replace(plan=planned.plan_bytes, prices=planned.price_bytes)


class Plans(unittest.TestCase):
    """A plan goes with the parameters that it was made with."""

    JOBS = [(0, 60, 10_000), (30, 120, 21_000)]
    GIVEN = {"highest": 3, "free": 20, "margin": 15}

    def test_made_and_checked(self):
        planned = ramyearly.plan(FIVE, self.JOBS, **self.GIVEN)
        self.assertEqual(planned.spans, [(0, 30), (30, 40), (40, 100)])
        self.assertEqual([sum(column) for column in zip(*planned.shares)], [11_500, 24_150])
        made = self.JOBS, planned.steps, planned.prices
        self.assertEqual(ramyearly.check(FIVE, *made, **self.GIVEN), planned.energy)
        self.assertEqual(ramyearly.fits(FIVE, self.JOBS, (3, planned.steps), **self.GIVEN), planned.energy)
        ordered = ramyearly.order(FIVE, *made[:1], planned.steps[::-1], planned.prices, **self.GIVEN)
        self.assertEqual(ordered.plan_bytes, planned.plan_bytes)

    def test_with_others(self):
        """Each parameter alone bears on what is accepted."""
        planned = ramyearly.plan(FIVE, self.JOBS, **self.GIVEN)
        for field, other, number in (("highest", 2, 20), ("free", 19, 22), ("free", 30, 16), ("margin", 14, 19)):
            with self.assertRaises(ramyearly.Refused) as caught:
                ramyearly.check(FIVE, self.JOBS, planned.steps, planned.prices, **{**self.GIVEN, field: other})
            self.assertEqual(caught.exception.number, number)
        with self.assertRaises(ramyearly.Refused) as caught:
            ramyearly.check(FIVE, self.JOBS, planned.steps, planned.prices)
        self.assertEqual(caught.exception.number, 18)
        # A higher level that is allowed and not needed makes no plan dearer.
        self.assertEqual(ramyearly.check(FIVE, self.JOBS, planned.steps, planned.prices, free=20, margin=15), planned.energy)

    def test_boards(self):
        """Boards whose allowed levels have the same working frequencies take the same plans with the same prices."""
        planned = ramyearly.plan(FIVE, self.JOBS, **self.GIVEN)
        other = [(0, 1), (300, 120), (320, 127), (350, 128), (400, 137), (600, 138)]
        self.assertEqual(ramyearly.working_frequencies(other, highest=4), [300, 350, 400])
        self.assertNotEqual(ramyearly.working_frequencies(other), [300, 350, 400])
        made = self.JOBS, planned.steps, planned.prices
        figure = ramyearly.check(other, *made, **{**self.GIVEN, "highest": 4})
        self.assertEqual(figure, ramyearly.plan(other, self.JOBS, **{**self.GIVEN, "highest": 4}).energy)
        with self.assertRaises(ramyearly.Refused):
            ramyearly.check(other, *made, free=20, margin=15)

    def test_the_largest_site(self):
        jobs = [(number, 1100 - number, 4 * (135 - 2 * number)) for number in range(64)]
        marks = [*range(100, 900, 100)]
        planned = ramyearly.plan([(n, 10 * n) for n in range(40, 48)], jobs, marks=marks, highest=7, free=100, margin=100)
        altered = [(release, deadline - 100, 2 * cycles) for release, deadline, cycles in jobs]
        self.assertEqual(planned.spans, spans_of(altered, marks))
        self.assertEqual([sum(column) for column in zip(*planned.shares)], [cycles for _, _, cycles in altered])


if __name__ == "__main__":
    unittest.main()
