"""The functions of a crate's source files by their layout, which is that of `rt fmt`.

A function begins at a line with its name, and has its clauses in the lines after it. Its body begins after the first line
that ends with an opening bracket, as no clause does, and ends at the next closing bracket below the function's first letter.
"""
import re
from dataclasses import dataclass

# A type, its items or a trait's for it, a trait, and a function.
TYPE = re.compile(r"^(?:pub(?:\([a-z ]+\))? )?(?:struct|enum) (\w+)", re.M)
IMPL = re.compile(r"impl(?:<(?P<generics>[^>]*)>)? (?:(?P<trait>\w+(?:<.*>)?) for )?(?P<type>&?\w+)(?:<(?P<arguments>[^{]*)>)?")
TRAIT = re.compile(r"(?:pub(?:\([a-z ]+\))? )?trait ")
FN = re.compile(r"(?P<indent> *)(?:pub(?:\([a-z ]+\))? )?(?P<const>const )?(?:unsafe )?fn (?P<name>\w+)(?:<(?P<generics>[^>(]*)>)?")
CYCLE = re.compile(r" *#\[cycle\((\w+)\)\]")
LIFETIMES = re.compile(r"('\w+(, )?)*")
# What stands in the place of a body that is left out, and its proof, which has a hole.
NO_BODY = "unreachable!()"
NO_PROOF = "use Rattle.{module}.Statement.{{statement}}\n\npub {name}_spec : {{M : Type 1}} → statement M\n{name}_spec = ?\n"


@dataclass(frozen=True)
class Function:
    """A function by its path in the crate, and its body: the lines from one number up to another."""

    path: str
    name: str
    start: int
    end: int
    # The folder of its proof, which it shares with the functions of a cycle of calls.
    proof: str
    # Whether its body can be left out: a check asks nothing of it but that it is a function with this contract.
    is_plain: bool


def module_of(file):
    """The module of a file below src/, as a path in the crate."""
    return [it for it in file.removeprefix("src/").removesuffix(".rt").split("/") if it not in ("lib", "main")]


def types_in(texts):
    """The modules of the types in the files of src/ with these texts, by their names."""
    return {name: module_of(file) for file, text in texts.items() for name in TYPE.findall(text)}


def functions_of(file, text, types):
    """The functions of a file with this text, where the crate's types are in these modules."""
    lines, owner, trait, instance, is_in_trait, found = text.split("\n"), "", "", "", False, []
    # (another file may have a type of the same name)
    types = types | types_in({file: text})
    for number, line in enumerate(lines):
        if begins := IMPL.match(line):
            owner, trait, instance = named(begins["type"]), named(begins["trait"] or ""), instance_of(begins)
        elif TRAIT.match(line):
            is_in_trait = True
        elif line == "}":
            owner, trait, instance, is_in_trait = "", "", "", False
        elif not is_in_trait and (begins := FN.match(line)):
            is_of_the_type = owner and not trait and not instance
            module = types.get(owner, module_of(file)) if is_of_the_type else module_of(file)
            found.append(function_at(lines, number, begins, module, owner + instance, trait))
    return found


def named(written):
    """The name in a path of a type or a trait as it is written: `RefStr` for `&str`, `FromChoiceFault` for `From<ChoiceFault>`."""
    words = re.findall(r"\w+", written.replace("&", "Ref "))
    return "".join(it[0].upper() + it[1:] for it in words)


def instance_of(begins):
    """What the name of a type has behind it where its items are for some arguments alone, as `+T+T+Packed` for `PackedVec<T, T::Packed>`."""
    generics = re.findall(r"\w+", re.sub(r":[^,]*", "", begins["generics"] or ""))
    arguments = [it for it in re.split(r", *", begins["arguments"] or "") if it and not it.startswith("'")]
    is_plain = begins["trait"] or all(it in generics for it in arguments)
    return "" if is_plain else "".join(f"+{it.replace('::', '+')}" for it in arguments)


def function_at(lines, number, begins, module, owner, trait):
    """The function that begins at the line with this number, in a module, and in the items of a type and of a trait for it if any."""
    start = next(it for it in range(number, len(lines)) if lines[it].endswith(("{", "{}"))) + 1
    is_empty = lines[start - 1].endswith("{}")
    end = start if is_empty else next(it for it in range(start, len(lines)) if lines[it] == begins["indent"] + "}")
    path = [*module, *([owner + trait] if owner else []), begins["name"]]
    cycle = CYCLE.fullmatch(lines[number - 1])
    proof = [*module, "+" + cycle[1]] if cycle else path
    is_plain = not (is_empty or trait or begins["const"] or cycle) and bool(LIFETIMES.fullmatch(begins["generics"] or ""))
    return Function("::".join(path), begins["name"], start, end, "/".join(["proofs", *proof]), is_plain)


def without_bodies(file, text, types, kept):
    """A file's text without the bodies of its plain functions but those that are kept, and the functions without a body."""
    lines = text.split("\n")
    left_out = [it for it in functions_of(file, text, types) if it.is_plain and it.path not in kept]
    for function in reversed(left_out):
        lines[function.start : function.end] = [NO_BODY]
    return "\n".join(lines), left_out


def hole_for(crate, function):
    """The proof of a function without a body."""
    return NO_PROOF.format(module=".".join([crate, *function.proof.split("/")]), name=function.name)
