"""Which functions are expanded in place and which are kept apart, where a compiler can be told.

A struct of more than a word comes back from a call packed, or in memory: stored field by field and then copied by more bytes at a time, for which a processor
lets the copy wait, some tens of cycles for each call. So a function that answers one is expanded in place, unless code is to be small. One that calls itself
cannot be, and what it calls is left to the compiler: its own memory is there once for each level. A short function that was written for many types, or is an
impl's or a closure's, is expanded in place everywhere, small code or not: iterators, `?` and closures then cost what a loop and a branch do, and a call of one takes more
bytes than its body. Any function of a few forms is expanded in place where code is to be small, for which a compiler else keeps too many of them apart; where it is to be
quick the compiler chooses better. A function with much memory of its own is kept apart, so that this is given back before its caller asks for more."""
# Bytes of a word; bytes of locals above which a function is kept apart.
WORD = 8
MEMORY = 4096

# Forms of a body and bytes of locals up to which a helper is expanded in place, also in a function that calls itself.
HELPER_FORMS = 80
HELPER_BYTES = 512

# Forms of a body up to which any function is expanded in place where code is to be small.
SHORT_FORMS = 24

WORDS = """\
#if defined(__GNUC__)
#define RT_APART __attribute__((noinline))
#else
#define RT_APART
#endif
#if defined(__GNUC__) && defined(__OPTIMIZE__) && !defined(__OPTIMIZE_SIZE__)
#define RT_HERE inline __attribute__((always_inline))
#else
#define RT_HERE inline
#endif
#if defined(__GNUC__) && defined(__OPTIMIZE__)
#define RT_WITHIN inline __attribute__((always_inline))
#else
#define RT_WITHIN inline
#endif
#if defined(__GNUC__) && defined(__OPTIMIZE_SIZE__)
#define RT_SHORT inline __attribute__((always_inline))
#else
#define RT_SHORT inline
#endif"""


class Calls:
    """What the functions that are written call."""

    def __init__(self, functions):
        self.functions = functions
        self.called = {name: {s["Call"][0]["Direct"] for s in function["body"] if isinstance(s, dict) and "Call" in s} for name, function in functions.items()}
        self.again = {name for name in functions if name in self.below(name)}
        self.by_these = {callee for name in self.again for callee in self.called[name]}

    def below(self, name):
        """The functions that are reached from what one calls."""
        seen, left = set(), list(self.called[name])
        while left:
            callee = left.pop()
            if callee not in seen:
                seen.add(callee)
                left += self.called[callee]
        return seen

    def helps(self, name):
        """Whether a function is a short one that was written for many types, or stands for a trait's or is a closure's: its caller is to see through it."""
        function = self.functions[name]
        return function.get("helper", False) and len(function["body"]) <= HELPER_FORMS

    def word(self, name, shapes, constants):
        """How a function is declared after `static`, where these locals are constants and take no memory of its own."""
        types = [local["ty"] for local in self.functions[name]["locals"]]
        if sum(shapes.laid(t)[0] for i, t in enumerate(types) if i not in constants) > MEMORY:
            return "RT_APART"
        if self.helps(name) and name not in self.again and sum(shapes.laid(t)[0] for t in types) <= HELPER_BYTES:
            return "RT_WITHIN"
        if shapes.laid(types[0])[0] > WORD and name not in self.again | self.by_these:
            return "RT_HERE"
        return "RT_SHORT" if len(self.functions[name]["body"]) <= SHORT_FORMS and name not in self.again else "inline"
