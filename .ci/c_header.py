"""Compares c/vtdm.h with the Rattle sources that it speaks for, by reading both: numbers, structs, and functions.

Each comparison answers what differs, as text, or None where both agree."""

import os
import re

TOP = os.path.dirname(os.path.dirname(os.path.abspath(__file__)))
HEADER = f"{TOP}/c/vtdm.h"
CRATES = f"{TOP}/crates"
# The sources of the numbers that the header names, and the widths whose ends it names.
LIMITS = ["dmatypes/src/limits.rt", "dmatypes/src/page.rt", "piece_tree/src/piece.rt", "driven/src/telling.rt"]
WIDTH = "dmatypes/src/width.rt"
ENDS = {"W39": "ADDRESSES_END", "W48": "WIDE_ADDRESSES_END"}
REFUSALS = "dmatypes/src/refusal.rt"
ANSWERS = "vtdm_c/src/answer.rt"
# A refusal that only a manager with a history has.
NOT_FOR_C = {"HistoryFull"}
# Types that C lays out, beside their struct in the header; what stands for a slice's pointer, and for a type of an argument or a member.
STRUCTS = {
    "Answer": "vtdm_answer",
    "Totals": "vtdm_totals_answer",
    "DomainTotals": "vtdm_domain_totals_answer",
    "Context": "vtdm_context_answer",
    "Sent": "vtdm_sent_answer",
    "Effect": "vtdm_effect",
    "Segment": "vtdm_segment",
}
SLICES = {"&[Segment]": "const struct vtdm_segment *", "&mut [u64]": "uint64_t *", "&mut [Effect]": "struct vtdm_effect *"}
TYPES = {
    "u64": "uint64_t",
    "bool": "bool",
    "*mut u8": "void *",
    "&mut Handle": "struct vtdm *",
    "": "void",
    **{rattle: f"struct {c}" for rattle, c in STRUCTS.items()},
}


def text_of(path):
    with open(path, encoding="utf-8") as file:
        return file.read()


def header_text():
    """The header without its comments."""
    return re.sub(r"/\*.*?\*/", "", text_of(HEADER), flags=re.S)


def source(path):
    """A Rattle source without its comments."""
    return re.sub(r"//.*", "", text_of(f"{CRATES}/{path}"))


def sources_of_c():
    for at, _, files in os.walk(f"{CRATES}/vtdm_c/src"):
        for name in sorted(files):
            yield source(os.path.relpath(os.path.join(at, name), CRATES))


def number(text):
    """The value of a number, or of `1 << N`, as either language writes it; the text itself where it is neither."""
    bare = re.sub(r"UINT64_C\((\w+)\)", r"\1", text).strip("() \n")
    one = re.fullmatch(r"(\d\w*)(?: << (\d+))?", bare)
    return int(one[1], 0) << int(one[2] or "0") if one else text


def enum_of(name):
    """The names of an enum of the header, without VTDM_, with their numbers."""
    body = re.search(rf"enum {name} \{{(.*?)\}}", header_text(), re.S)[1]
    pairs = [it.split("=") for it in body.split(",") if it.strip()]
    return {name.strip().removeprefix("VTDM_"): number(value) for name, value in pairs}


def arms(text, pattern):
    return {name: int(value) for name, value in re.findall(pattern, text)}


def shouted(name):
    """A variant's name as C has it: NoDomain as NO_DOMAIN."""
    return re.sub(r"(?<=[a-z])(?=[A-Z])", "_", name).upper()


def difference(wanted, given):
    """What differs between two tables, the sources' and the header's."""
    if not wanted:
        return "the sources have none"
    parts = [f"{key}: {wanted.get(key)} and {given.get(key)}" for key in sorted({*wanted, *given}) if wanted.get(key) != given.get(key)]
    return f"sources and header have {'; '.join(parts)}" if parts else None


def statuses():
    """Refusals, faults, and the interface's own statuses."""
    refusals = arms(source(REFUSALS), r"Refusal::(\w+) => (\d+)")
    faults = arms(source(REFUSALS), r"Fault::(\w+) => (\d+)")
    own = arms(source(ANSWERS), r"pub const (\w+): u64 = (\d+);")
    base = own.pop("FAULTS")
    wanted = {shouted(name): value for name, value in refusals.items() if name not in NOT_FOR_C}
    for name, value in own.items():
        if wanted.setdefault(name, value) != value:
            return f"{name} has two numbers in the sources"
    wanted.update({f"FAULT_{shouted(name)}": base + value for name, value in faults.items()})
    return difference(wanted, enum_of("vtdm_status"))


def ends():
    """Where the device addresses of each width end, by the name that the header gives it."""
    body = re.search(r"fn addresses_end\b.*?^    \}", source(WIDTH), re.S | re.M)[0]
    return {ENDS.get(width, width): end for width, end in re.findall(r"Width::(\w+) => ([^,]+),", body)}


def limits():
    """Each macro that has a number has the name and the number of a constant, or of a width's end."""
    have = ends()
    for path in LIMITS:
        have.update(re.findall(r"const (\w+): (?:u64|usize) = ([^;]+);", source(path)))
    macros = dict(re.findall(r"^#define VTDM_(\w+) (.*\d.*)$", header_text(), re.M))
    return difference({name: number(have.get(name, "")) for name in macros}, {name: number(value) for name, value in macros.items()})


def choices():
    """Rights, modes, caches, and kinds of effects."""
    rights = arms(source("dmatypes/src/rights.rt"), r"const (READ|WRITE) = (\d+);")
    modes = arms(source("vtdm_c/src/told.rt"), r"Mode::(\w+) => (\d+)")
    caches = {name: int(value) for value, name in re.findall(r"(\d+) => Some\(Cache::(\w+)\)", source("vtdm_c/src/requests.rt"))}
    kinds = arms(source("vtdm_c/src/effect.rt"), r"pub const (\w+): u64 = (\d+);")
    return (
        difference({f"EFFECT_{name}": value for name, value in kinds.items()}, enum_of("vtdm_effect_kind"))
        or difference(rights, enum_of("vtdm_rights"))
        or difference({shouted(name): value for name, value in modes.items()}, enum_of("vtdm_mode"))
        or difference({f"CACHE_{shouted(name)}": value for name, value in caches.items()}, enum_of("vtdm_cache"))
    )


def members(text, name):
    """The members of a Rattle struct that C lays out, as C has them; ghost fields take no room."""
    body = re.search(rf"#\[repr\(C\)\]\s*(?:#\[[^\n]*\]\s*)*pub struct {name} \{{(.*?)\n\}}", text, re.S)
    fields = re.findall(r"^\s*(?:pub )?(\w+): ([^,{]+),$", body[1], re.M) if body else []
    return [(field, TYPES.get(kind, kind)) for field, kind in fields]


def members_in_header(name):
    body = re.search(rf"^struct {name} \{{(.*?)^\}};", header_text(), re.S | re.M)
    return [(field, f"{kind} *" if star else kind) for kind, star, field in re.findall(r"(\w+) (\*?)(\w+);", body[1])] if body else []


def structs():
    """What C lays out has the same members in the same order."""
    text = "\n".join(sources_of_c())
    wanted = {c: members(text, rattle) for rattle, c in STRUCTS.items()}
    handle = [members(text, "Slot") if field == "slot" else [(field, kind)] for field, kind in members(text, "Handle")]
    wanted["vtdm"] = [it for part in handle for it in part]
    named = re.findall(r"^struct (\w+) \{", header_text(), re.M)
    return difference(wanted, {name: members_in_header(name) for name in named})


def parameters(text):
    """An export's parameters, as C has them: the allocator is the library's own, and a slice is a pointer and a count."""
    found = []
    for name, kind in re.findall(r"(\w+): ([^,]+?)(?:,|$)", " ".join(text.split())):
        if kind in SLICES:
            found += [(SLICES[kind], name), ("size_t", "count")]
        elif kind != "Global":
            found.append((TYPES.get(kind, kind), "manager" if kind == "&mut Handle" else name))
    return found


def exports():
    """The functions that the library has for C: what each answers, and its parameters."""
    pattern = r"#\[unsafe\(no_mangle\)\]\s*pub extern \"C\" fn (\w+)\(([^)]*)\)(?: -> (\w+))?"
    found = [it for text in sources_of_c() for it in re.findall(pattern, text)]
    return {name: (TYPES.get(answer, answer), parameters(given)) for name, given, answer in found}


def prototypes():
    """The functions that the header declares."""
    found = {}
    for answer, name, given in re.findall(r"^((?:struct )?\w+) (\w+)\(([^)]*)\);", header_text(), re.M):
        parts = [re.fullmatch(r"(.*?)(\w+)", " ".join(it.split())) for it in given.split(",")]
        found[name] = (answer, [(part[1].strip(), part[2]) for part in parts])
    return found


def functions():
    """Each export has a prototype and the other way round, with the same parameters."""
    return difference(exports(), prototypes())


COMPARISONS = {
    "statuses": statuses,
    "limits": limits,
    "rights, modes, caches and kinds of effects": choices,
    "structs": structs,
    "functions": functions,
}
