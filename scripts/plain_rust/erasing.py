"""Erases contracts and ghost code from a source file, so that Rust is left.

Each rule looks at the tokens around a word, never at types. It knows the forms in the sources, and stops at any other
form. A call that Rust lacks, or that has another meaning in Rust, doesn't compile: the module `fallible`, written by
hand, has the calls that the sources use.
"""

from .source import Source

# the system, which only programs have
HOST = "HostRuntime"
# words that no rule has erased, or that have another meaning in Rust
REFUSED = ["Drop", HOST, "Model", "async", "await", "cycle", "dyn", "ensures", "extern", "ghost", "invariant",
           "macro_rules", "prove", "requires", "tactic", "unsafe"]
ATTRIBUTES = ["cold", "default", "derive", "inline"]
LAYOUT = ["#", "[", "repr", "(", "C", ")", "]"]
EXPORTED = ["#", "[", "unsafe", "(", "no_mangle", ")", "]", "pub", "extern"]
MACROS = ["format_args", "matches", "unreachable", "value_parser", "write", "writeln"]
# macros that are methods of the system
PRINTING = ["eprint", "eprintln"]
# modules of std that are in core, and modules written by hand, with the names in them
CORE = ["cell", "fmt", "marker", "mem", "ops", "ptr", "str"]
BY_HAND = {"alloc": ["AllocError", "AllocFailed", "Global"],
           "collections": ["BTreeMap", "BTreeSet", "BinaryHeap", "VecDeque"], "rc": ["RcSlice"], "sync": ["Arc"]}
# the modules of the system, written by hand for programs alone, and the modules of Rust's std that are used as they are
HOSTED = ["env", "fs"]
PLAIN = ["io", "process"]
PRELUDE = ["Box", "String", "Vec"]
# methods with arguments that are written by hand, with their traits and their names there
METHODS = {"collect": ("CollectIn", "collect_in"), "split_off": ("TakeFront", "take_front"),
           "to_string": ("Printed", "to_string_in"), "try_map": ("TryEach", "try_each")}
# such methods without arguments
BARE_METHODS = {"split_off_first": ("TakeFront", "take_one")}
# the type of a field for C that is a slice in the sources; it is in the module that stands for `std`
SPAN = "Span"


def erased(path, text, paths, may=()):
    """The text of a source file as Rust. `paths` gives the paths in Rust of crates, also of `crate` and `std`, and of
    `host` for a program; `may` has words that are refused elsewhere, such as `unsafe`."""
    source = Source(path, text)
    for rule in (erase_models, erase_ghosts, erase_clauses, erase_exports, erase_attributes, erase_drops,
                 erase_drop_bounds, erase_writers, erase_imports, plain_lists, plain_fields, plain_texts, plain_main):
        rule(source)
    host = paths.get("host")
    refuse_unknown(source, [*may, HOST] if host else may)
    plain_paths(source, paths)
    plain_std(source, paths["std"], host)
    add_imports(source, plain_methods(source), paths["std"], host)
    return source.text()


def end_of_ghost(source, at):
    """The end of `ghost use ..;`, `ghost name: { .. };` or `ghost name = { .. };`; the comma belongs to a field."""
    if source.word(at + 1) == "use":
        return source.find(at, ";") + 1
    if source.tokens[at + 1].kind != "word" or source.word(at + 2) not in (":", "=") or source.word(at + 3) != "{":
        source.refuse(at, "an unknown ghost")
    end = source.closing(at + 3) + 1
    if source.word(end) == "by":
        end = source.closing(end + 1) + 1
    if source.word(end) not in (";", ",", "}"):
        source.refuse(at, "a ghost without an end")
    return end if source.word(end) == "}" else end + 1


def erase_models(source):
    """Erases `impl Model for T { .. }`, all of whose members are ghosts."""
    for at in source.indices("Model"):
        if source.word(at + 1) != "for":
            continue
        body = source.find(at, "{")
        member, end = body + 1, source.closing(body)
        while member < end:
            if source.word(member) != "ghost":
                source.refuse(member, "a member of a model that is no ghost")
            member = end_of_ghost(source, member)
        source.erase_item(source.find_back(at, "impl"), end + 1)


def erase_ghosts(source):
    """Erases ghost imports, ghost members of traits and impls, and ghost fields."""
    for at in source.indices("ghost"):
        start = at - 1 if source.word(at - 1) == "pub" else at
        source.erase_item(start, end_of_ghost(source, at))


def erase_clauses(source):
    """Erases the clauses of a function between its signature and its body, with the comments among them."""
    for at in source.indices("fn"):
        start = end = source.find(at, "requires", "ensures", "{", ";", "}", ")", "]", ",")
        while source.word(end) in (",", ")", "]"):
            start = end = source.find(end + 1, "requires", "ensures", "{", ";", "}", ")", "]", ",")
        while source.word(end) in ("requires", "ensures"):
            name = end + 2 if source.word(end + 1) == "*" else end + 1
            braces = name if source.word(name) == "{" else name + 1
            if source.word(braces) != "{":
                source.refuse(end, "a clause without braces")
            end = source.closing(braces) + 1
        if end > start:
            join_body(source, start, end)


def join_body(source, start, end):
    """Puts the body that begins at `end` after the signature that ends before `start`."""
    if source.word(end) not in ("{", ";"):
        source.refuse(end, "the clauses of a function end before its body")
    is_after_bounds = source.word(start - 1) == ","
    lead = source.tokens[end].lead if is_after_bounds else "" if source.word(end) == ";" else " "
    source.erase(start, end)
    source.tokens[start].lead = lead


def erase_exports(source):
    """Makes a call for C a function of Rust; `exports` makes the function that C calls."""
    for at in source.indices("#"):
        if source.words(at, *EXPORTED):
            source.erase(at, at + 7)
            source.erase(at + 1, at + 3)


def erase_attributes(source):
    """Erases the attributes for the prover, and `Drop` among the derives."""
    for at in source.indices("#"):
        is_inner = source.word(at + 1) == "!"
        name = source.word(at + 2 + is_inner)
        end = source.closing(at + 1 + is_inner) + 1
        if name in ("tactic", "cycle"):
            (source.erase_item if is_inner else source.erase)(at, end)
        elif name not in ATTRIBUTES and not source.words(at, *LAYOUT):
            source.refuse(at, f"an unknown attribute: {name}")
        elif source.words(at + 2, "derive", "(", "Drop", ")"):
            source.erase(at, end)
        elif name == "derive":
            erase_names(source, at + 3, "Drop")


def erase_names(source, bracket, name):
    """Erases a name with its comma from a list between brackets, if the list has the name."""
    for at in range(bracket + 1, source.closing(bracket)):
        if source.word(at) != name:
            continue
        if source.word(at + 1) == ",":
            source.erase(at, at + 2)
        else:
            lead = source.tokens[at + 1].lead
            source.erase(at - 1, at + 1)
            source.tokens[at - 1].lead = lead
        return


def erase_drops(source):
    """Erases `impl Drop for T { fn drop(self) { let T { a: _, b: _ } = self; } }`: Rust drops fields by itself."""
    for at in source.indices("Drop"):
        if not source.words(at, "Drop", "for"):
            continue
        body = source.find(at, "{")
        end = source.closing(body) + 1
        fields = body + 9
        if not (
            source.words(body + 1, "fn", "drop", "(", "self", ")", "{", "let")
            and source.words(source.closing(fields), "}", "=", "self", ";", "}", "}")
            and all(source.words(field + 1, ":", "_") for field in range(fields + 1, source.closing(fields), 4))
        ):
            source.refuse(at, "a `drop` that does more than to name the fields")
        source.erase_item(source.find_back(at, "impl"), end)


def erase_drop_bounds(source):
    """Erases the bounds `T: Drop`, `T: Drop + U`, `T: U + Drop`: in Rust each value may be dropped."""
    for at in source.indices("Drop"):
        if source.word(at - 1) not in (":", "+"):
            source.refuse(at, "a `Drop` that is no bound")
        if source.word(at + 1) == "+":
            source.erase(at, at + 2)
        else:
            lead = source.tokens[at + 1].lead
            source.erase(at - 1, at + 1)
            source.tokens[at - 1].lead = lead


def erase_writers(source):
    """Erases `W` in `fn fmt<W: fmt::Write>(.., f: &mut fmt::Formatter<W>)`: a formatter of Rust has no parameter."""
    for at in source.indices("Formatter"):
        if source.word(at + 1) != "<":
            continue
        writer, bound = source.word(at + 2), source.find_back(at, "fn") + 2
        lengths = [len(form) for form in ([writer, ":", "fmt", "::", "Write"], [writer, ":", "Write"])
                   if source.words(bound, "<", *form, ">")]
        if not lengths:
            source.refuse(at, "a formatter that isn't the one of a function `fmt`")
        source.tokens[at + 2].text = "'_"
        source.erase(bound, bound + lengths[0] + 2)


def erase_imports(source):
    """Erases imports that only erased code used. `Write` of `std::io` has methods, so its import stays."""
    for name, module in (("Model", "marker"), ("Write", "fmt")):
        found = source.indices(name)
        start = source.find_back(found[0], "use", ";", "}") if len(found) == 1 else 0
        if len(found) != 1 or source.word(start) != "use" or source.word(start + 3) != module:
            continue
        at = found[0]
        bracket = source.find_back(at, "{", "use")
        if source.word(bracket) == "use":
            source.erase_item(bracket, source.find(at, ";") + 1)
            continue
        erase_names(source, bracket, name)
        if source.word(bracket + 2) == "}":
            del source.tokens[bracket + 2], source.tokens[bracket]


def plain_lists(source):
    """Replaces `vec![in alloc; item; count]` by a call."""
    for at in source.indices("vec"):
        if not source.words(at + 1, "!", "[", "in"):
            continue
        end, first = source.closing(at + 2), source.find(at + 4, ";", "]")
        second = source.find(min(first + 1, end), ";", "]")
        if first >= end or second >= end:
            continue
        for index, text in zip([at, at + 1, at + 2, first, second, end], ["Vec", "::from_elem", "(", ",", ",", ")"]):
            source.tokens[index].text = text
        source.erase(at + 3, at + 4)


def plain_fields(source):
    """Replaces slices of bytes in structs for C: C passes a pointer and a length; Rust fixes no layout of slices."""
    for at in source.indices("#"):
        if not source.words(at, *LAYOUT):
            continue
        start = source.find(at, "{")
        refuse_slices(source, start)
        names = [i - 1 for i in source.indices(":") if start < i < source.closing(start) and is_bytes(source, i + 1)]
        for name in [source.word(i) for i in names]:
            for use in source.indices(name):
                if source.words(use - 2, "self", ".") and source.word(use + 1) != "(":
                    source.tokens[use].text += ".bytes()"
        for name in names:
            for index, text in zip(range(name + 2, name + 5), [SPAN, "<" + source.word(name + 3), ">"]):
                source.tokens[index].text = text
            source.tokens[name + 4].lead = ""
            source.erase(name + 5, name + 7)


def refuse_slices(source, start):
    """Stops at any other slice in a struct for C, whose fields begin at an index: Rust fixes no layout of slices."""
    for at in range(start, source.closing(start)):
        if source.word(at) == "[" and source.word(at - 1) != ":" and not is_bytes(source, at - 2):
            source.refuse(at, "a slice in a struct for C that isn't one of bytes")


def is_bytes(source, at):
    """Whether the tokens from an index on are the type `&'a [u8]`."""
    return source.word(at) == "&" and source.tokens[at + 1].kind == "lifetime" and source.words(at + 2, "[", "u8", "]")


def plain_texts(source):
    """Replaces `format!(in alloc; ..)` by a call, and `eprintln!(rt; ..)` by a method."""
    for at in source.indices("format", *PRINTING):
        if not source.words(at + 1, "!", "("):
            continue
        name, is_format = source.word(at), source.word(at + 3) == "in"
        end, first = source.closing(at + 2), source.find(at + 3, ";", ")")
        if first >= end or is_format != (name == "format") or not (is_format or first == at + 4):
            continue
        source.replace(end, end + 1, ")", ")")
        source.tokens[first + 1].lead = source.tokens[first + 1].lead.lstrip(" ")
        source.replace(first, first + 1, *([","] if is_format else []), *(["format_args", "!", "("]))
        if is_format:
            source.tokens[first + 1].lead = " "
            source.replace(at, at + 4, "String", "::from_fmt", "(")
            source.tokens[at + 3].lead = ""
        else:
            source.replace(at, at + 4, source.word(at + 3), ".", f"{name}_fmt", "(")


def plain_main(source):
    """Replaces the parameter of `fn main(rt: HostRuntime)`: in Rust `main` asks for the system."""
    for at in source.indices("main"):
        if not source.words(at - 1, "fn", "main", "(", "rt", ":", HOST, ")"):
            continue
        source.erase(at + 2, at + 5)
        body = source.find(at, "{")
        source.replace(body, body + 1, "{", "let rt =", HOST, "::of_process();")
        for token, lead in zip(source.tokens[body:], [" ", "\n    ", " "]):
            token.lead = lead


def refuse_unknown(source, may):
    """Stops at constructs that aren't Rust, or that may have another meaning in Rust."""
    for at, token in enumerate(source.tokens):
        if token.kind == "text" or token.text in may:
            continue
        is_union = token.text == "union" and source.tokens[at + 1].kind == "word"
        if is_union or token.text in REFUSED or not token.text.isascii():
            source.refuse(at, f"an unknown construct: {token.text}")
        is_macro = token.kind == "word" and source.word(at + 1) == "!" and not source.tokens[at + 1].lead
        if is_macro and source.word(at + 2) != "=" and token.text not in MACROS:
            source.refuse(at, f"an unknown macro: {token.text}!")


def plain_paths(source, paths):
    """Replaces the paths of crates."""
    for at in source.indices(*(name for name in paths if name != "std")):
        if source.word(at + 1) == "::" and source.word(at - 1) != "::":
            source.tokens[at].text = paths[source.word(at)]


def plain_std(source, by_hand, host):
    """Replaces paths of `std` by paths of `core`, or of modules by hand, which allocate memory or ask the system."""
    for at in source.indices("std"):
        if source.word(at + 1) != "::":
            continue
        modules = names_at(source, at + 2)
        items = names_at(source, at + 4) if source.word(at + 3) == "::" else []
        if all(name in CORE for name in modules):
            source.tokens[at].text = "core"
        elif items and set(items) <= set(BY_HAND.get(modules[0], [])):
            source.tokens[at].text = by_hand
        elif host and all(name in HOSTED for name in modules):
            source.tokens[at].text = host
        elif not all(name in (PLAIN if host else PLAIN[:1]) for name in modules):
            source.refuse(at, f"an unknown path: std::{'::'.join([*modules, *items])}")


def names_at(source, at):
    """The name at an index, or the names between braces."""
    if source.word(at) != "{":
        return [source.word(at)]
    return [source.word(i) for i in range(at + 1, source.closing(at)) if source.tokens[i].kind == "word"]


def plain_methods(source):
    """Renames methods that are written by hand; gives their traits."""
    traits = set()
    for at in source.indices("."):
        is_call = source.word(at + 2) == "("
        methods = BARE_METHODS if source.word(at + 3) == ")" else METHODS
        if is_call and source.word(at + 1) in methods:
            trait, source.tokens[at + 1].text = methods[source.word(at + 1)]
            traits.add(trait)
    return traits


def add_imports(source, traits, by_hand, host):
    """Imports names that the prelude of Rust's `core` lacks, and the traits of methods."""
    words = {source.word(at) for at in range(len(source.tokens))
             if source.word(at - 1) != "::" and source.word(at + 1) != "("}
    if host and HOST in words:
        add_import(source, [HOST], host)
    names = sorted(traits.union(words.intersection([*PRELUDE, SPAN])))
    if names:
        add_import(source, names, by_hand)


def add_import(source, names, front):
    """Imports these names of a module."""
    at = next((at for at in range(len(source.tokens)) if source.word(at) == "use"), 0)
    at -= source.word(at - 1) == "pub"
    path = names[0] if len(names) == 1 else "{" + ", ".join(names) + "}"
    source.insert(at, f"use {front}::{path};", "\n" if source.word(at).split(" ")[0] in ("use", "pub") else "\n\n")
