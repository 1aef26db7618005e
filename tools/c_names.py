"""Names of a module as names of C: keywords, and what C's headers or the written code have for themselves, are escaped."""

import re

KEYWORDS = set(
    # C11 and C23
    "auto break case char const continue default do double else enum extern float for goto if inline int long register restrict"
    " return short signed sizeof static struct switch typedef union unsigned void volatile while alignas alignof bool constexpr"
    " false nullptr static_assert thread_local true typeof typeof_unqual asm fortran"
    # C++ alone, since a header is read there too
    " and and_eq bitand bitor catch char8_t char16_t char32_t class co_await co_return co_yield compl concept const_cast consteval"
    " constinit decltype delete dynamic_cast explicit export friend mutable namespace new noexcept not not_eq operator or or_eq"
    " private protected public reinterpret_cast requires static_cast template this throw try typeid typename using virtual wchar_t"
    " xor xor_eq final override import module"
    # what headers and compilers may define as macros
    " NULL EOF I errno assert stdin stdout stderr offsetof linux unix i386 mips sparc sun vax"
    # the parameters of each written function
    " message length outcome".split()
)
# Names that C's headers, or the written code, have for themselves.
TAKEN = re.compile(r"td_\w*|TD_\w*|\w*_t|U?INT\w*|PTRDIFF_\w*|SIZE_\w*|WCHAR_\w*|WINT_\w*|SIG_ATOMIC_\w*|E[A-Z0-9]\w*|SIG\w*")
# How a name of the compiler's begins, and how one of a written routine does.
OWN = re.compile(r"_|routine_[0-9]")
# What a file's name is, as the beginning of its functions' names.
PREFIX = re.compile(r"[A-Za-z][A-Za-z0-9_]*")


def undotted(name):
    """A name with a dot, as a part's type has, as a piece of a name of C: a `_` stands in the dot's place."""
    return name.replace(".", "_")


def escaped(name):
    """A name that may stand as a parameter or a member: one that C has already gets a `_` behind it; before a `_` that begins
    one, since such names are the compiler's, gets an `x`, as does the beginning of a written function's name."""
    name = undotted(name)
    if OWN.match(name):
        name = "x" + name
    return name + "_" if name in KEYWORDS or TAKEN.fullmatch(name) else name


def unique(name, taken):
    """The name, with as many `_` behind it as make it another one than those that are taken; it is taken then."""
    while name in taken:
        name += "_"
    taken.add(name)
    return name
