"""The slips that students make, each as an edit of tools/model.py: what the calculator would reply if it made the slip.

    calculator(slip)    a calculator (tools/runs.py) that makes the slip, or none for None
"""
import os
import sys
from types import ModuleType

HOME = os.path.dirname(os.path.abspath(__file__))

# Text of the model, and what stands in its place.
SLIPS = {
    # stops testing when n equals N
    'stop_at_n_equal': [('n > p.N()', 'n >= p.N()')],
    # starts the CumSum at engine 1
    'cumsum_at_engine_1': [("            self.marks = '-'\n", "            self.marks = '-'\n            self.c_low = self.c_high = max(0, 4 * k * (X - T))\n")],
    # carries an amended standard back over the engines already tested
    'amendment_backwards': [('            self.standards = (ev[1], ev[2])\n',
                             '            self.standards = (ev[1], ev[2])\n'
                             '            self.engines = [engine._replace(standards=self.standards) for engine in self.engines]\n'
                             '            self.rework()\n')],
    # compares the CumSum with the action limit of the engine before
    'limit_of_the_previous': [('        self.h_low, self.h_high = 20 * s, 20 * (s + e)\n', ''),
                              ("            self.marks += '?'\n", "            self.marks += '?'\n        self.h_low, self.h_high = 20 * s, 20 * (s + e)\n"),
                              # engine 2 has no limit before it
                              ('        step = 4 * k * (X - T)\n',
                               '        step = 4 * k * (X - T)\n        if i == 2:\n            self.h_low, self.h_high = 20 * s, 20 * (s + e)\n')],
    # reads C equal to H as over
    'equal_is_over': [('if self.c_low > self.h_high:', 'if self.c_low >= self.h_high:')],
    # rounds once, at the end
    'once_at_the_end': [('    mean = round_even(sum(round_even(r, 1000) for r in readings), len(readings))\n', '    total, count = sum(readings), len(readings)\n'),
                        ('round_even(1000 * mean + factor, 1000)', 'round_even(total + factor * count, 1000 * count)'),
                        ('round_even(mean * factor, 1000)', 'round_even(total * factor, 1000000 * count)')],
    # writes sigma to two decimals, and goes on with that
    'sigma_to_two_decimals': [('SLOT, MAX_EVENTS, MAX_ENGINES = 544, 32, 8, 64, 40\nK = 1024\n', 'SLOT, MAX_EVENTS, MAX_ENGINES = 544, 32, 8, 64, 40\nK = 100\n'),
                              ('s = isqrt(kkv // d) ', 's = (isqrt(4 * kkv // d) + 1) // 2 '),
                              ('e = 0 if s * s * d == kkv else 1', 'e = 0')],
}


def calculator(slip):
    """The three modules anew, the model with the slip's edits; what was loaded before stays as it was."""
    names = ('model', 'call_lists', 'runs')
    before = {name: sys.modules.pop(name, None) for name in names}
    for name in names:
        with open(os.path.join(HOME, name + '.py')) as f:
            text = f.read()
        for old, new in SLIPS[slip] if slip and name == 'model' else ():
            assert text.count(old) == 1, 'the model has %d times: %s' % (text.count(old), old)
            text = text.replace(old, new)
        sys.modules[name] = module = ModuleType(name)
        exec(compile(text, name, 'exec'), module.__dict__)
    for name in names:
        del sys.modules[name]
        if before[name]:
            sys.modules[name] = before[name]
    return module.Calculator()
