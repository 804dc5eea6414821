"""A back end for omniidl: the interface file of giopctl (docs/FORMATS.md), made from IDL.

    omniidl -p idl -b giop_json [-Wb..] FILE.idl

-Wbinterface=NAME  takes this interface (Calc or Bank::Account) where the file has several
-Wball             writes each interface into a file, Bank.Account.json, of this folder
-Wbtypes           writes the names of structs, unions and enums in place of their descriptions,
                   and the interface's id and what each operation raises beside
-Wbskip            leaves out operations that can't be said, and names them on standard error
-Wbcalls           prints a skeleton of calls in place of the interface
-Wbanswers         prints a skeleton of answers in place of the interface

What giopctl has no type for is refused with its name, file and line, and status 1.
"""

import json
import sys

from omniidl import idlast, idltype

BASE_TYPES = {
    idltype.tk_boolean: "boolean", idltype.tk_octet: "octet", idltype.tk_char: "char",
    idltype.tk_short: "short", idltype.tk_long: "long", idltype.tk_longlong: "longlong",
    idltype.tk_ushort: "ushort", idltype.tk_ulong: "ulong", idltype.tk_ulonglong: "ulonglong",
}
REFUSED_TYPES = {
    idltype.tk_float: "float", idltype.tk_double: "double", idltype.tk_longdouble: "long double",
    idltype.tk_any: "any", idltype.tk_TypeCode: "TypeCode", idltype.tk_Principal: "Principal",
    idltype.tk_wchar: "wchar", idltype.tk_wstring: "wstring", idltype.tk_fixed: "fixed",
}
# Begins with an underscore, as no name of IDL does once its escape is dropped.
RESULT = "_result"
OPTIONS = ["all", "types", "skip", "calls", "answers"]
NIL = "IOR:00000000000000010000000000000000"
OF_EVERY_OBJECT = {
    "_is_a": {"ins": [["logical_type_id", "string"]], "outs": [[RESULT, "boolean"]]},
    "_non_existent": {"outs": [[RESULT, "boolean"]]},
}


class Refused(Exception):
    """Something of the IDL that the interface file can't say."""

    def __init__(self, what, where):
        super().__init__("%s:%d: %s" % (where.file(), where.line(), what))


class Types:
    """Descriptions of types; that of a declaration is made once, and named where that is asked."""

    def __init__(self, with_names):
        self.with_names = with_names
        self.made, self.named = {}, {}
        self.open = set()
        self.last_member = None

    def of(self, kind, where):
        """The description of a type that stands at a declaration."""
        if kind.kind() in BASE_TYPES:
            return BASE_TYPES[kind.kind()]
        if kind.kind() in REFUSED_TYPES:
            raise Refused(REFUSED_TYPES[kind.kind()] + " is not supported", where)
        if isinstance(kind, idltype.String):
            return {"string": kind.bound()} if kind.bound() else "string"
        if isinstance(kind, idltype.Sequence):
            return self.sequence(kind, where)
        if isinstance(kind, idltype.Declared):
            return self.declared(kind, where)
        raise Refused("this type is not supported", where)

    def sequence(self, kind, where):
        """A sequence; one of octets has a form of its own."""
        item, bound = self.of(kind.seqType(), where), kind.bound()
        if item == "octet":
            return {"octets": bound} if bound else "octets"
        return {"sequence": item, "bound": bound} if bound else {"sequence": item}

    def declared(self, kind, where):
        """A type that has a name."""
        name = "::".join(kind.scopedName())
        if kind.kind() == idltype.tk_objref:
            return self.reference(kind.decl(), name, where)
        decl = kind.decl()
        if isinstance(decl, (idlast.StructForward, idlast.UnionForward)):
            decl = decl.fullDecl()
        if name in self.open:
            raise Refused(name + " is recursive, which is not supported", self.last_member)
        if name not in self.made:
            self.open.add(name)
            try:
                self.made[name] = self.declaration(decl, name, where)
            finally:
                self.open.discard(name)
        if self.with_names and isinstance(decl, (idlast.Enum, idlast.Struct, idlast.Union)):
            self.named[name] = self.made[name]
            return {"type": name}
        return self.made[name]

    def reference(self, decl, name, where):
        """An object reference; local objects have none."""
        if decl is not None and hasattr(decl, "local") and decl.local():
            raise Refused("%s is a local interface, which is not supported" % name, where)
        return "reference"

    def declaration(self, decl, name, where):
        """The description of a typedef, enum, struct or union."""
        if isinstance(decl, idlast.Declarator):
            return self.declarator(decl, decl.alias().aliasType())
        if isinstance(decl, idlast.Enum):
            return {"enum": [e.identifier() for e in decl.enumerators()]}
        if isinstance(decl, idlast.Struct):
            return {"struct": self.members(decl)}
        if isinstance(decl, idlast.Union):
            return self.union(decl)
        raise Refused(name + " is of a kind that is not supported", where)

    def declarator(self, decl, kind):
        """The type of a declarator: its sizes are around the type, the first outermost."""
        made = self.of(kind, decl)
        for size in reversed(decl.sizes()):
            made = {"array": made, "length": size}
        return made

    def members(self, decl):
        """Those of a struct or an exception."""
        return [self.member(d, m.memberType()) for m in decl.members() for d in m.declarators()]

    def member(self, decl, kind):
        """One of them; a type is recursive by the one that was begun last."""
        self.last_member = decl
        return [decl.identifier(), self.declarator(decl, kind)]

    def union(self, decl):
        """Labels beside `default:` select the same member, so it alone is told."""
        disc = self.of(decl.switchType(), decl)
        made = {"union": disc, "cases": []}
        for case in decl.cases():
            member = self.member(case.declarator(), case.caseType())
            if any(label.default() for label in case.labels()):
                made["default"] = member
            else:
                labels = [label_of(label.value(), disc) for label in case.labels()]
                made["cases"].append([labels] + member)
        if not made["cases"]:
            raise Refused("a union of a default alone is not supported", decl)
        return made


def label_of(value, disc):
    """A label as the discriminant's type wants it."""
    if isinstance(value, idlast.Enumerator):
        return value.identifier()
    if disc == "char":
        return value if isinstance(value, str) else chr(value & 0xFF)
    return bool(value) if disc == "boolean" else value


class Operations:
    """The operations of an interface and what they raise."""

    def __init__(self, types, skip):
        self.types, self.skip = types, skip
        self.operations, self.exceptions, self.seen = {}, {}, set()

    def interface(self, decl):
        """Those that are inherited first, each parent once."""
        decl = decl.fullDecl()
        if isinstance(decl, idlast.Declarator):
            decl = decl.alias().aliasType().unalias().decl().fullDecl()
        name = "::".join(decl.scopedName())
        if name in self.seen:
            return
        self.seen.add(name)
        if decl.local() or decl.abstract():
            raise Refused("%s is a local or abstract interface" % name, decl)
        for parent in decl.inherits():
            self.interface(parent)
        for callable_ in decl.callables():
            self.callable(callable_)

    def callable(self, decl):
        """An operation or an attribute; what is refused is left out where that is asked for."""
        try:
            if isinstance(decl, idlast.Attribute):
                self.attribute(decl)
            else:
                self.operation(decl)
        except Refused as refused:
            if not self.skip:
                raise
            attribute = isinstance(decl, idlast.Attribute)
            names = decl.identifiers() if attribute else [decl.identifier()]
            print("left out %s: %s" % (", ".join(names), refused), file=sys.stderr)

    def attribute(self, decl):
        """An operation that reads it, and one that writes it."""
        kind = self.types.of(decl.attrType(), decl)
        for name in decl.identifiers():
            self.operations["_get_" + name] = {"outs": [[RESULT, kind]]}
            if not decl.readonly():
                self.operations["_set_" + name] = {"ins": [["value", kind]]}

    def operation(self, decl):
        """Its ins, its outs behind its result, and its exceptions."""
        if decl.contexts():
            raise Refused("a context is not supported", decl)
        ins, outs = [], []
        if decl.returnType().kind() != idltype.tk_void:
            outs.append([RESULT, self.types.of(decl.returnType(), decl)])
        for p in decl.parameters():
            parameter = [p.identifier(), self.types.of(p.paramType(), p)]
            ins += [parameter] if p.is_in() else []
            outs += [parameter] if p.is_out() else []
        raised = {e.repoId(): self.types.members(e) for e in decl.raises()}
        made = {key: value for key, value in (("ins", ins), ("outs", outs)) if value}
        if decl.oneway():
            made["oneway"] = True
        if raised and self.types.with_names:
            made["raises"] = list(raised)
        self.operations[decl.identifier()] = made
        self.exceptions.update(raised)


def zero(desc):
    """The first value of a description, for a skeleton."""
    if isinstance(desc, str):
        plain = {"boolean": False, "char": "A", "string": "", "octets": "", "reference": NIL}
        if desc in plain:
            return plain[desc]
        return 0
    if "struct" in desc:
        return {name: zero(member) for name, member in desc["struct"]}
    if "union" in desc:
        labels, _, member = desc["cases"][0]
        return {"disc": labels[0], "value": zero(member)}
    if "enum" in desc:
        return desc["enum"][0]
    if "array" in desc:
        return [zero(desc["array"])] * desc["length"]
    return [] if "sequence" in desc else ""


def values(parameters):
    """A value for each parameter."""
    return [zero(desc) for _, desc in parameters]


def calls(made):
    """A call of each operation, ids from 1."""
    return [{"id": number, "operation": name, "ins": values(operation.get("ins", []))}
            for number, (name, operation) in enumerate(made["operations"].items(), 1)]


def answers(made):
    """An answer of each operation that has one."""
    return {name: {"ok": values(operation.get("outs", []))}
            for name, operation in made["operations"].items() if not operation.get("oneway")}


def interfaces(decls):
    """Those of the main file, with those in its modules, as they stand."""
    found = []
    for decl in decls:
        if isinstance(decl, idlast.Module):
            found += interfaces(decl.definitions())
        elif isinstance(decl, idlast.Interface) and decl.mainFile():
            found.append(decl)
    return found


def convert(decl, options):
    """What is asked for of one interface."""
    skeleton = "calls" in options or "answers" in options
    made = Operations(Types("types" in options and not skeleton), "skip" in options)
    made.interface(decl)
    made.operations.update(OF_EVERY_OBJECT)
    whole = {"operations": made.operations, "exceptions": made.exceptions}
    if "calls" in options:
        return calls(whole)
    if "answers" in options:
        return answers(whole)
    if "types" in options:
        return {"id": decl.repoId(), "types": made.types.named, **whole}
    return whole


def chosen(found, options):
    """The one interface that is meant."""
    named = [o.split("=", 1)[1] for o in options if o.startswith("interface=")]
    if named:
        found = [d for d in found if "::".join(d.scopedName()) == named[-1].lstrip(":")]
    if len(found) != 1:
        names = ", ".join("::".join(d.scopedName()) for d in found)
        sys.exit("giop_json: %s" % ("several interfaces, take one by -Wbinterface=NAME: " + names
                                    if found else "no such interface"))
    return found[0]


def write_all(found, options):
    """Each interface into a file of its name, once all of them could be said."""
    texts = list((d.scopedName(), json.dumps(convert(d, options))) for d in found)
    for name, text in texts:
        with open(".".join(name) + ".json", "w", encoding="ascii") as file:
            print(text, file=file)


def run(tree, options):
    """What omniidl calls."""
    for option in options:
        if option not in OPTIONS and not option.startswith("interface="):
            sys.exit("giop_json: no such option: -Wb" + option)
    found = interfaces(tree.declarations())
    try:
        if "all" in options:
            write_all(found, options)
        else:
            print(json.dumps(convert(chosen(found, options), options)))
    except Refused as refused:
        sys.exit("giop_json: %s" % refused)
